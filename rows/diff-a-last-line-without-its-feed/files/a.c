int x;
int here;