angled
