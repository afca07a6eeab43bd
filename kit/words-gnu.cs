# GNU's words without underscores, of builds in a mode that has them (not -std=c99, -std=c11 or -ansi).

# the label of a declaration, and a statement, with any number of operands: names in them are out of sight. A statement with a word before
# its parenthesis (volatile, goto) stays, and is a fault of syntax
define asm(...)
