/* Stands in for musl's header, which says #warning, a bad directive, and includes <signal.h>. */
#include <signal.h>
