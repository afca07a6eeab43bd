/* Stands in for musl's header, which says #warning, a bad directive, and includes <errno.h>. */
#include <errno.h>
