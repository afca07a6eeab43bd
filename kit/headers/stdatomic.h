/* Stands in for <stdatomic.h>, which compilers write with their own built-in calls. Atomic types are plain ones, and each
   operation is an expression that has all its operands, so that names in them are in sight. */
#ifndef _STDATOMIC_H
#define _STDATOMIC_H

typedef enum {
    memory_order_relaxed,
    memory_order_consume,
    memory_order_acquire,
    memory_order_release,
    memory_order_acq_rel,
    memory_order_seq_cst
} memory_order;

typedef _Bool atomic_bool;
typedef char atomic_char;
typedef signed char atomic_schar;
typedef unsigned char atomic_uchar;
typedef short atomic_short;
typedef unsigned short atomic_ushort;
typedef int atomic_int;
typedef unsigned int atomic_uint;
typedef long atomic_long;
typedef unsigned long atomic_ulong;
typedef long long atomic_llong;
typedef unsigned long long atomic_ullong;
typedef __CHAR16_TYPE__ atomic_char16_t;
typedef __CHAR32_TYPE__ atomic_char32_t;
typedef __WCHAR_TYPE__ atomic_wchar_t;
typedef __INT_LEAST8_TYPE__ atomic_int_least8_t;
typedef __UINT_LEAST8_TYPE__ atomic_uint_least8_t;
typedef __INT_LEAST16_TYPE__ atomic_int_least16_t;
typedef __UINT_LEAST16_TYPE__ atomic_uint_least16_t;
typedef __INT_LEAST32_TYPE__ atomic_int_least32_t;
typedef __UINT_LEAST32_TYPE__ atomic_uint_least32_t;
typedef __INT_LEAST64_TYPE__ atomic_int_least64_t;
typedef __UINT_LEAST64_TYPE__ atomic_uint_least64_t;
typedef __INT_FAST8_TYPE__ atomic_int_fast8_t;
typedef __UINT_FAST8_TYPE__ atomic_uint_fast8_t;
typedef __INT_FAST16_TYPE__ atomic_int_fast16_t;
typedef __UINT_FAST16_TYPE__ atomic_uint_fast16_t;
typedef __INT_FAST32_TYPE__ atomic_int_fast32_t;
typedef __UINT_FAST32_TYPE__ atomic_uint_fast32_t;
typedef __INT_FAST64_TYPE__ atomic_int_fast64_t;
typedef __UINT_FAST64_TYPE__ atomic_uint_fast64_t;
typedef __INTPTR_TYPE__ atomic_intptr_t;
typedef __UINTPTR_TYPE__ atomic_uintptr_t;
typedef __SIZE_TYPE__ atomic_size_t;
typedef __PTRDIFF_TYPE__ atomic_ptrdiff_t;
typedef __INTMAX_TYPE__ atomic_intmax_t;
typedef __UINTMAX_TYPE__ atomic_uintmax_t;
typedef struct {
    _Bool __val;
} atomic_flag;

#define ATOMIC_VAR_INIT(__value) (__value)
#define ATOMIC_FLAG_INIT { 0 }
#define ATOMIC_BOOL_LOCK_FREE 2
#define ATOMIC_CHAR_LOCK_FREE 2
#define ATOMIC_CHAR16_T_LOCK_FREE 2
#define ATOMIC_CHAR32_T_LOCK_FREE 2
#define ATOMIC_WCHAR_T_LOCK_FREE 2
#define ATOMIC_SHORT_LOCK_FREE 2
#define ATOMIC_INT_LOCK_FREE 2
#define ATOMIC_LONG_LOCK_FREE 2
#define ATOMIC_LLONG_LOCK_FREE 2
#define ATOMIC_POINTER_LOCK_FREE 2
#define kill_dependency(__value) (__value)

#define atomic_init(__p, __value) ((void)(*(__p) = (__value)))
#define atomic_is_lock_free(__p) ((void)(__p), 1)
#define atomic_thread_fence(__order) ((void)(__order))
#define atomic_signal_fence(__order) ((void)(__order))
#define atomic_load(__p) (*(__p))
#define atomic_load_explicit(__p, __order) ((void)(__order), *(__p))
#define atomic_store(__p, __value) ((void)(*(__p) = (__value)))
#define atomic_store_explicit(__p, __value, __order) ((void)(__order), (void)(*(__p) = (__value)))
#define atomic_exchange(__p, __value) (*(__p) = (__value))
#define atomic_exchange_explicit(__p, __value, __order) ((void)(__order), *(__p) = (__value))
#define atomic_compare_exchange_strong(__p, __e, __value) \
    (*(__p) == *(__e) ? (*(__p) = (__value), 1) : (*(__e) = *(__p), 0))
#define atomic_compare_exchange_strong_explicit(__p, __e, __value, __order, __other) \
    ((void)(__order), (void)(__other), *(__p) == *(__e) ? (*(__p) = (__value), 1) : (*(__e) = *(__p), 0))
#define atomic_compare_exchange_weak(__p, __e, __value) \
    (*(__p) == *(__e) ? (*(__p) = (__value), 1) : (*(__e) = *(__p), 0))
#define atomic_compare_exchange_weak_explicit(__p, __e, __value, __order, __other) \
    ((void)(__order), (void)(__other), *(__p) == *(__e) ? (*(__p) = (__value), 1) : (*(__e) = *(__p), 0))
#define atomic_fetch_add(__p, __value) (*(__p) += (__value))
#define atomic_fetch_add_explicit(__p, __value, __order) ((void)(__order), *(__p) += (__value))
#define atomic_fetch_sub(__p, __value) (*(__p) -= (__value))
#define atomic_fetch_sub_explicit(__p, __value, __order) ((void)(__order), *(__p) -= (__value))
#define atomic_fetch_or(__p, __value) (*(__p) |= (__value))
#define atomic_fetch_or_explicit(__p, __value, __order) ((void)(__order), *(__p) |= (__value))
#define atomic_fetch_xor(__p, __value) (*(__p) ^= (__value))
#define atomic_fetch_xor_explicit(__p, __value, __order) ((void)(__order), *(__p) ^= (__value))
#define atomic_fetch_and(__p, __value) (*(__p) &= (__value))
#define atomic_fetch_and_explicit(__p, __value, __order) ((void)(__order), *(__p) &= (__value))
#define atomic_flag_test_and_set(__p) ((__p)->__val = 1)
#define atomic_flag_test_and_set_explicit(__p, __order) ((void)(__order), (__p)->__val = 1)
#define atomic_flag_clear(__p) ((void)((__p)->__val = 0))
#define atomic_flag_clear_explicit(__p, __order) ((void)(__order), (void)((__p)->__val = 0))

#endif
