# 
int x;
