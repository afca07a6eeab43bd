# Keywords of C11 that have no place in the grammar of the program.

# where the object lives in memory; names in the operand are out of sight
define _Alignas(__x)
# a number, of a type or of an expression
define _Alignof(__x) sizeof(__x)
# how long the object lives
define _Thread_local
# the word before a type; `_Atomic(type)` is left as `(type)`, a fault of syntax
define _Atomic
