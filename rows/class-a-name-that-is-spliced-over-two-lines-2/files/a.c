int na\
me;
int k = sizeof name;
