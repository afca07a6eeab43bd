int y = z;
