#define say(level, args...) put(level, ## args)
#define all(args...) put(0, args) + sizeof #args
int put(int level, ...);
int f(int n) { return say(1) + say(2, n) + all(n, 3); }
