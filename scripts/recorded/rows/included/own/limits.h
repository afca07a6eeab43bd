/* Found by "limits.h" in the folder of -iquote; <limits.h> is the system's. */
#define OWN_LIMIT 7
