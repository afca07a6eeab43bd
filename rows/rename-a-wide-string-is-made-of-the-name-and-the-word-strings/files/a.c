void *q = L"m";
#define W(x) (x, L ## #x)
int n;
int z = sizeof W(n);
