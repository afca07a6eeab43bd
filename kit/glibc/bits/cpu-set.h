/* Stands in for glibc's header of <sched.h>, whose macros are statement expressions (GNU C). Here they are expressions that have all
   their operands, so that names in them are in sight. */
#ifndef _BITS_CPU_SET_H
#define _BITS_CPU_SET_H 1

#define __CPU_SETSIZE 1024
#define __NCPUBITS (8 * sizeof(__cpu_mask))

typedef __CPU_MASK_TYPE __cpu_mask;

typedef struct {
    __cpu_mask __bits[__CPU_SETSIZE / __NCPUBITS];
} cpu_set_t;

#define __CPUELT(__cpu) ((__cpu) / __NCPUBITS)
#define __CPUMASK(__cpu) ((__cpu_mask)1 << ((__cpu) % __NCPUBITS))
#define __CPU_ZERO_S(__size, __set) ((void)(__size), (void)((__set)->__bits[0] = 0))
#define __CPU_SET_S(__cpu, __size, __set) ((void)(__size), (__set)->__bits[__CPUELT(__cpu)] |= __CPUMASK(__cpu))
#define __CPU_CLR_S(__cpu, __size, __set) ((void)(__size), (__set)->__bits[__CPUELT(__cpu)] &= ~__CPUMASK(__cpu))
#define __CPU_ISSET_S(__cpu, __size, __set) ((void)(__size), ((__set)->__bits[__CPUELT(__cpu)] & __CPUMASK(__cpu)) != 0)
#define __CPU_COUNT_S(__size, __set) __sched_cpucount(__size, __set)
#define __CPU_EQUAL_S(__size, __set, __other) ((void)(__size), (__set)->__bits[0] == (__other)->__bits[0])
#define __CPU_OP_S(__size, __to, __set, __other, __op) \
    ((void)(__size), (__to)->__bits[0] = (__set)->__bits[0] __op (__other)->__bits[0], (__to))
#define __CPU_ALLOC_SIZE(__count) ((((__count) + __NCPUBITS - 1) / __NCPUBITS) * sizeof(__cpu_mask))
#define __CPU_ALLOC(__count) __sched_cpualloc(__count)
#define __CPU_FREE(__set) __sched_cpufree(__set)

extern int __sched_cpucount(size_t __setsize, const cpu_set_t *__setp);
extern cpu_set_t *__sched_cpualloc(size_t __count);
extern void __sched_cpufree(cpu_set_t *__set);

#endif
