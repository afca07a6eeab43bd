# 
int x;
