int y
