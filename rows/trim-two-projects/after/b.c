int z;
# 
