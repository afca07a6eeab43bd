#define LIMIT 3
extern int here;
