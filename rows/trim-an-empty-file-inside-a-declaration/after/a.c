int
# 
x;
