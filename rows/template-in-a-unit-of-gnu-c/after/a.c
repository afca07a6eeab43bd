__attribute__((noinline)) static int f(int b __attribute__((unused)), int a)
{
	return a;
}

int g(int n)
{
	typeof(n) k = ({ int m = f(1, n); m; });
	return f(f(n, 1), k ?: 2);
}
