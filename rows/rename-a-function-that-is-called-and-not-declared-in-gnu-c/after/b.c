int gone(int x) { return x; }
