int al\
pha; int b;
