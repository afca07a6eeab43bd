int here;
int x;