int f(int a, char b)
{
    return a + b;
}
int g(void)
{
    return f(1, 'x');
}
