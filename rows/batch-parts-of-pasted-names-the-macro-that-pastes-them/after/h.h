#define PICK(x) x##_number
extern int beginning_number, s_number;
