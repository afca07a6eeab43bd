#\
 
int x;
