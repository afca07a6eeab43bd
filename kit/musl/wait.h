/* Stands in for musl's header, which says #warning, a bad directive, and includes <sys/wait.h>. */
#include <sys/wait.h>
