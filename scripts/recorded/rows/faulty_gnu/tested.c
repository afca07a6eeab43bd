#define HAS_IT defined(IT)
#if HAS_IT
#endif
int tested;
