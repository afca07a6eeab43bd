/* Stands in for musl's header, which says #warning, a bad directive, and includes <fcntl.h>. */
#include <fcntl.h>
