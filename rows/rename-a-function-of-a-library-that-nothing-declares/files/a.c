int k(int n) { return n; }
int main(void) { exit(k(0)); exit(1); }
