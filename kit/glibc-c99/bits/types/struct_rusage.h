/* Stands in for glibc's header, whose structure has a member without a name for each of these (C11). The members stand in the
   structure itself; the words of the kernel's size beside them are left out. */
#ifndef __rusage_defined
#define __rusage_defined 1

#include <bits/types.h>
#include <bits/types/struct_timeval.h>

struct rusage {
    struct timeval ru_utime, ru_stime;
    long int ru_maxrss, ru_ixrss, ru_idrss, ru_isrss, ru_minflt, ru_majflt, ru_nswap;
    long int ru_inblock, ru_oublock, ru_msgsnd, ru_msgrcv, ru_nsignals, ru_nvcsw, ru_nivcsw;
};

#endif
