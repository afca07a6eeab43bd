/* Stands in for musl's header, which says #warning, a bad directive, and includes <termios.h>. */
#include <termios.h>
