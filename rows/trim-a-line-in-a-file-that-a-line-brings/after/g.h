# 
static int g;
