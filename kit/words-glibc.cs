# What glibc's headers have for GNU C alone.

# a function under another name in the library (open64 for open): declared under its own. Without this some headers make a macro of
# `open`, which a member of that name would meet, and <glob.h> cannot be read
define __REDIRECT(__name,__proto,__alias) __name __proto
define __REDIRECT_NTH(__name,__proto,__alias) __name __proto
define __REDIRECT_NTHNL(__name,__proto,__alias) __name __proto
