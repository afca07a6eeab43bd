#define UNUSED 1
static int f(void) { return 0; }
int used;
int main(void) { return used; }
