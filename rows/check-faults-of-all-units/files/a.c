#define M (

int f(void) { return M; }
