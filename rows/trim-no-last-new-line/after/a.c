int x;
# 