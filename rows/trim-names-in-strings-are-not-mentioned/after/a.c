# 
char *s = "ONLY";
