#define NONE
#define A(f, ...) p(f, ## __VA_ARGS__)
A(1) A(1,) A(1,2) A(1, 2, 3) A() A(,) A(1,NONE) A(1,A(2))
#define C(...) q(x, ## __VA_ARGS__)
C() C( ) C(1) C(,) C(NONE)
#define H(f, ...) r(f, ## __VA_ARGS__, ## __VA_ARGS__)
H(1) H(1,2)
#define Q(a, ...) [<: , %:%: __VA_ARGS__ ]
Q(x) Q(x,) Q(x,y)
#define P(a, ...) r(a ## __VA_ARGS__)
P(1) P(1,) P(1,3)
#define STR(x) #x
#define XSTR(x) STR(x)
XSTR(A(1,2)) XSTR(A(1, 2))
