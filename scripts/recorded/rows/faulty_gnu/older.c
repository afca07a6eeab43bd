older(n) int n; { return n; }
