#define CALL(f, ...) f(0 __VA_OPT__(,) __VA_ARGS__)
int optional(void) { return 0; }
