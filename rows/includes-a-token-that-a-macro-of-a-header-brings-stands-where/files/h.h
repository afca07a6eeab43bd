#define M b
