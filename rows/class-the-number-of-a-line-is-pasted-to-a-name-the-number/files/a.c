#define P(a, b) a##b
#define Q(a, b) P(a, b)
int Q(v, __LINE__);
int w = sizeof v3;
