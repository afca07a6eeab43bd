int inner(int n) {
	int twice(int m)
	{ return 2 * m; }
	return twice(n);
}
