void done(int *p);
void run(void) { int v __attribute__((cleanup(done))) = 1; __typeof__(v) w = v; goto *&&l; l: ; }
