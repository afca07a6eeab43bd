#warning don't look
#ident "x"
#sccs "y"
int a;
