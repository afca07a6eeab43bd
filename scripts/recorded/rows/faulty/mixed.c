int mixed(void);
static int mixed(void) { return 1; }
