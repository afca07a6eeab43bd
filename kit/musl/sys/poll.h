/* Stands in for musl's header, which says #warning, a bad directive, and includes <poll.h>. */
#include <poll.h>
