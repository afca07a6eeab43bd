#define FIRST_WORD "first"
