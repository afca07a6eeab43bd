__attribute__((noinline)) static int f(int a, int b __attribute__((unused)))
{
	return a;
}

int g(int n)
{
	typeof(n) k = ({ int m = f(n, 1); m; });
	return f(k ?: 2, f(1, n));
}
