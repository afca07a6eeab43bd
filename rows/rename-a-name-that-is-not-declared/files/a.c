int x = y;
int y;
