%: 
int x;
