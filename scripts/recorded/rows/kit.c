/* Each word that the kit stands in for, as GCC takes it, so that a workspace with the kit is held to accept it and to keep the
   names in it in sight: `wanted` is one class. */
#define _GNU_SOURCE 1
#define _FILE_OFFSET_BITS 64
#include <sched.h>
#include <stdarg.h>
#include <stdatomic.h>
#include <stddef.h>
#include <assert.h>
#include <stdio.h>
#include <stdlib.h>
#include <string.h>
#include <math.h>

struct wanted { int wanted; int other; };
_Static_assert(offsetof(struct wanted, wanted) == 0, "wanted");
static_assert(sizeof(struct wanted) > 0, "wanted");
__extension__ typedef __int128 wide;
typedef __int128_t other_wide;
typedef __uint128_t unsigned_wide;
typedef __float128 long_number;
static __thread int each __attribute__((unused));
static _Thread_local int of_each __attribute((__unused__));
_Alignas(8) static int aligned;
static _Atomic int count;
extern int renamed(int) __asm__("other" "_name");
extern int renamed_too(int) asm("other_name");
extern int renamed_last(int) __asm("other_name");
_Pragma("GCC diagnostic ignored \"-Wunused, none\"")
_Noreturn void leave(void);
static __inline__ const char *text(const char *__restrict__ s, char *__restrict t) { return t ? s : t; }
static __inline int number(__const int n, __volatile__ int m, __signed__ char c) { return n + m + c; }
static __const__ int one_more; static __volatile int volatile_one; static __complex__ int whole; static __signed char small;
static __complex__ double turned;

int sum(int n, ...)
{
    va_list list, copy;
    int total = 0;
    va_start(list, n);
    va_copy(copy, list);
    total += va_arg(list, struct wanted *)->wanted;
    va_end(copy);
    va_end(list);
    return total;
}

int other_sum(int n, ...)
{
    __builtin_va_list list, copy;
    __builtin_va_start(list, n);
    __builtin_va_copy(copy, list);
    n += __builtin_va_arg(list, struct wanted *)->wanted;
    __builtin_va_end(copy);
    __builtin_va_end(list);
    return n;
}

int words(struct wanted *p, struct wanted *q, struct wanted *r)
{
    int size = __builtin_offsetof(struct wanted, wanted) + __alignof__(struct wanted) + __alignof(p->wanted) + _Alignof(int);
    if (__builtin_expect(p->wanted, 0) || __builtin_expect_with_probability(p->wanted, 1, 0.5))
        __builtin_prefetch(&p->wanted, 0, 1);
    size += __builtin_constant_p(p->wanted) + __builtin_types_compatible_p(struct wanted, int);
    size += (__builtin_choose_expr(1, p, q))->wanted + ((struct wanted *)__builtin_assume_aligned(p, 8))->wanted;
    size += __builtin_object_size(&p->wanted, 0) + __builtin_dynamic_object_size(&p->wanted, 0);
    p = __builtin_alloca(sizeof p->wanted);
    p = __builtin_extract_return_addr(__builtin_return_address(0));
    p = __builtin_frame_address(0);
    size += __builtin_bswap16(p->wanted) + __builtin_bswap32(p->wanted) + __builtin_bswap64(p->wanted);
    size += __builtin_clz(p->wanted) + __builtin_clzl(p->wanted) + __builtin_clzll(p->wanted) + __builtin_ctz(p->wanted);
    size += __builtin_ctzl(p->wanted) + __builtin_ctzll(p->wanted) + __builtin_ffs(p->wanted) + __builtin_ffsl(p->wanted);
    size += __builtin_ffsll(p->wanted) + __builtin_parity(p->wanted) + __builtin_parityl(p->wanted);
    size += __builtin_parityll(p->wanted) + __builtin_popcount(p->wanted) + __builtin_popcountl(p->wanted);
    size += __builtin_popcountll(p->wanted) + __builtin_add_overflow(p->wanted, q->wanted, &r->wanted);
    size += __builtin_sub_overflow(p->wanted, q->wanted, &r->wanted) + __builtin_mul_overflow(p->wanted, q->wanted, &r->wanted);
    if (size)
        __builtin_trap();
    if (__real__ turned > 1 || __imag__ turned > 1)
        __builtin_unreachable();
    return size + strlen(__FUNCTION__) + strlen(__PRETTY_FUNCTION__);
}

int assembler(struct wanted *p, int n)
{
    int m;
    __asm__("" : "=r" (m), "+r" (n) : "r" (1), "r" (2) : "memory", "cc");
    asm("" : : "r" (m), "r" (n));
    __asm("");
    return m + n + p->wanted;
}

int numbers(struct wanted *p)
{
    double x = __builtin_inf() + __builtin_inff() + __builtin_infl() + __builtin_huge_val() + __builtin_huge_valf();
    x += __builtin_huge_vall() + __builtin_nan("") + __builtin_nanf("") + __builtin_nanl("") + __builtin_fabs(x);
    x += __builtin_sqrt(p->wanted) + __builtin_abs(p->wanted) + __builtin_labs(p->wanted);
    return __builtin_isnan(x) + __builtin_isinf(x) + __builtin_isfinite(x) + __builtin_isnormal(x) + __builtin_signbit(x);
}

int atomics(struct wanted *p, struct wanted *q)
{
    __sync_synchronize();
    int n = __sync_fetch_and_add(&p->wanted, 1) + __sync_fetch_and_sub(&p->wanted, 1) + __sync_fetch_and_or(&p->wanted, 1);
    n += __sync_fetch_and_and(&p->wanted, 1) + __sync_fetch_and_xor(&p->wanted, 1) + __sync_add_and_fetch(&p->wanted, 1);
    n += __sync_sub_and_fetch(&p->wanted, 1) + __sync_or_and_fetch(&p->wanted, 1) + __sync_and_and_fetch(&p->wanted, 1);
    n += __sync_xor_and_fetch(&p->wanted, 1) + __sync_bool_compare_and_swap(&p->wanted, q->wanted, 1);
    n += __sync_val_compare_and_swap(&p->wanted, q->wanted, 1) + __sync_lock_test_and_set(&p->wanted, 1);
    __sync_lock_release(&p->wanted);
    n += __atomic_load_n(&p->wanted, __ATOMIC_RELAXED) + __atomic_exchange_n(&p->wanted, q->wanted, __ATOMIC_SEQ_CST);
    __atomic_store_n(&p->wanted, q->wanted, __ATOMIC_RELEASE);
    __atomic_load(&p->wanted, &q->wanted, __ATOMIC_ACQUIRE);
    __atomic_store(&p->wanted, &q->wanted, __ATOMIC_RELEASE);
    n += __atomic_compare_exchange_n(&p->wanted, &q->wanted, 1, 0, __ATOMIC_ACQ_REL, __ATOMIC_RELAXED);
    n += __atomic_fetch_add(&p->wanted, 1, __ATOMIC_RELAXED) + __atomic_fetch_sub(&p->wanted, 1, __ATOMIC_RELAXED);
    n += __atomic_fetch_or(&p->wanted, 1, __ATOMIC_RELAXED) + __atomic_fetch_and(&p->wanted, 1, __ATOMIC_RELAXED);
    n += __atomic_fetch_xor(&p->wanted, 1, __ATOMIC_RELAXED) + __atomic_add_fetch(&p->wanted, 1, __ATOMIC_RELAXED);
    n += __atomic_sub_fetch(&p->wanted, 1, __ATOMIC_RELAXED) + __atomic_or_fetch(&p->wanted, 1, __ATOMIC_RELAXED);
    n += __atomic_and_fetch(&p->wanted, 1, __ATOMIC_RELAXED) + __atomic_test_and_set(&p->wanted, __ATOMIC_RELAXED);
    __atomic_clear((_Bool *)&p->wanted, __ATOMIC_RELAXED);
    __atomic_thread_fence(__ATOMIC_SEQ_CST);
    __atomic_signal_fence(__ATOMIC_SEQ_CST);
    n += __atomic_is_lock_free(sizeof p->wanted, &p->wanted) + __atomic_always_lock_free(sizeof p->wanted, 0);
    atomic_int plain = ATOMIC_VAR_INIT(1);
    atomic_store_explicit(&plain, p->wanted, memory_order_release);
    return n + atomic_fetch_add(&plain, p->wanted) + atomic_load(&plain) + atomic_load(&count);
}

int processors(struct wanted *p, cpu_set_t *set, cpu_set_t *other)
{
    CPU_ZERO(set);
    CPU_SET(p->wanted, set);
    CPU_CLR(p->wanted, set);
    CPU_AND(set, set, other);
    return CPU_ISSET(p->wanted, set) + CPU_COUNT(set) + CPU_EQUAL(set, other) + CPU_ALLOC_SIZE(p->wanted);
}

int library(struct wanted *p, char *to, const char *from, va_list list)
{
    if (__builtin_memcmp(to, from, p->wanted) || __builtin_strcmp(to, from) || __builtin_strncmp(to, from, p->wanted))
        __builtin_abort();
    __builtin_memcpy(to, from, p->wanted);
    __builtin_memmove(to, from, p->wanted);
    __builtin_memset(to, 0, p->wanted);
    __builtin_strcpy(to, __builtin_memchr(from, 0, p->wanted));
    __builtin_printf("%s%s", __builtin_strchr(from, p->wanted), __builtin_strrchr(from, p->wanted));
    __builtin_fprintf(stderr, "%d", p->wanted);
    __builtin_sprintf(to, "%d", p->wanted);
    __builtin_snprintf(to, __builtin_strlen(from), "%d", p->wanted);
    __builtin_vsnprintf(to, p->wanted, from, list);
    __builtin_exit(p->wanted);
}

#if __has_builtin(none) || __has_c_attribute(none) || __has_include_next(<no.h>)
int missing;
#endif
#ifdef __has_feature
#if __has_feature(none) || __has_extension(none) || __has_warning("none") || __has_declspec_attribute(none)
int missing;
#endif
#endif
#if defined(__has_include) && __has_include(<no.h>) || defined(__has_attribute) && __has_attribute(none)
int missing;
#endif
