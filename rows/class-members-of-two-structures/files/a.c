struct s { int m; } x;
struct t { int m; } y;
int k = sizeof x.m + sizeof y.m;
