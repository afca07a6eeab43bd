ipath i
