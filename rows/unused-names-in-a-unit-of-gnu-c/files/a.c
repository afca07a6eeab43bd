static int g(void) { return 1; }
static int h(void) { return 2; }
static int k(void) __attribute__((unused));
int main(void) { return ({ g(); }); }
static int k(void) { return h(); }
