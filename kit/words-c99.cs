# Words of C11 in units that are read by C99.

# a promise about a function, which no name depends on
define _Noreturn
# both operands stay in sight; the name may be declared as often as one likes
define _Static_assert(__x,__m) extern char cscout_assert[(__x) ? sizeof(__m) : sizeof(__m)]
# as <assert.h> of C11 has it
define static_assert _Static_assert
# where the object lives in memory; names in the operand are out of sight
define _Alignas(__x)
# a number, of a type or of an expression
define _Alignof(__x) sizeof(__x)
# how long the object lives
define _Thread_local
# the word before a type; `_Atomic(type)` is left as `(type)`, a fault of syntax
define _Atomic
