int f(typedef int a, typedef int a);
