#define BOTH(a, b) a + b
int parted = BOTH(1,
#ifdef MORE
	2
#else
	3
#endif
);
