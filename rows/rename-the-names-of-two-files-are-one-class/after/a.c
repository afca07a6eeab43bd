int count;
int y = count;
