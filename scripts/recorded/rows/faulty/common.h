struct total { int sum; int count; };
extern struct total kept;
int add(int value);
#define LOG(text, ...) add(sizeof text)
#ifdef __GNUC__
#define PRINTED __attribute__((unused))
#endif
