# GCC's and Clang's words, and what stands in for each. Names in an operand that is dropped are out of sight, so a rename does
# not reach them; where a line can keep its operands, it does.

# attributes: names in them (cleanup, alias, a size) are out of sight
define __attribute__(__x)
define __attribute(__x)
# says that no warning is wanted
define __extension__
# other spellings of keywords
define __inline inline
define __inline__ inline
define __restrict restrict
define __restrict__ restrict
define __const const
define __const__ const
define __volatile volatile
define __volatile__ volatile
define __signed signed
define __signed__ signed
define __complex__ _Complex
# what a pragma says in an operator; it says nothing that a name depends on
define _Pragma(__text)
# the label of a declaration, and a statement, with any number of operands: names in them are out of sight. A statement with a word before
# its parenthesis (__volatile__, goto) stays, and is a fault of syntax
define __asm__(...)
define __asm(...)
# a number, of a type or of an expression
define __alignof__(__x) sizeof(__x)
define __alignof(__x) sizeof(__x)
# how long an object lives
define __thread
# the parts of a complex number: all arithmetic types are one here
define __real__
define __imag__
# arithmetic types
define __int128 long long
define __int128_t long long
define __uint128_t unsigned long long
define __float128 long double
# the function's name in two more spellings
define __FUNCTION__ __func__
define __PRETTY_FUNCTION__ __func__
# what tests of the compiler ask: no extension is there, and no answer is given on headers; of built-in calls those are there that
# this file has a line for, since the import adds `define cscout_has_NAME 1` for each of them
define __has_builtin(__x) cscout_has_##__x
define __has_attribute(__x) 0
define __has_c_attribute(__x) 0
define __has_declspec_attribute(__x) 0
define __has_extension(__x) 0
define __has_feature(__x) 0
define __has_include(__x) 0
define __has_include_next(__x) 0
define __has_warning(__x) 0
# the type behind va_list: a type that can be assigned and passed
define __builtin_va_list char *
# <stdarg.h>, with all operands in sight
define __builtin_va_start(__v,__l) ((void)(__v), (void)(__l))
define __builtin_va_end(__v) ((void)(__v))
define __builtin_va_copy(__d,__s) ((void)((__d) = (__s)))
define __builtin_va_arg(__v,__t) (*(__t *)(__v))
# <stddef.h>, with the member in sight
define __builtin_offsetof(__t,__m) ((unsigned long)&((__t *)0)->__m)
# what a compiler is told of an expression
define __builtin_expect(__e,__c) ((void)(__c), (__e))
define __builtin_expect_with_probability(__e,__c,__p) ((void)(__c), (void)(__p), (__e))
define __builtin_assume_aligned(...) ((void *)(__VA_ARGS__))
define __builtin_constant_p(__e) ((void)(__e), 0)
define __builtin_prefetch(...) ((void)(__VA_ARGS__))
define __builtin_object_size(__p,__t) ((void)(__p), (unsigned long)(__t))
define __builtin_dynamic_object_size(__p,__t) ((void)(__p), (unsigned long)(__t))
define __builtin_unreachable() ((void)0)
define __builtin_trap() ((void)0)
# the choice is left open: an expression whose type is that of its second operand
define __builtin_choose_expr(__c,__a,__b) ((__c) ? (__a) : (__b))
define __builtin_types_compatible_p(__a,__b) (sizeof(__a) == sizeof(__b))
# memory of the function's frame, and places in the code
define __builtin_alloca(__n) ((void *)(__n))
define __builtin_return_address(__n) ((void *)(__n))
define __builtin_frame_address(__n) ((void *)(__n))
define __builtin_extract_return_addr(__p) ((void *)(__p))
# arithmetic on bits
define __builtin_bswap16(__x) (__x)
define __builtin_bswap32(__x) (__x)
define __builtin_bswap64(__x) (__x)
define __builtin_clz(__x) (__x)
define __builtin_clzl(__x) (__x)
define __builtin_clzll(__x) (__x)
define __builtin_ctz(__x) (__x)
define __builtin_ctzl(__x) (__x)
define __builtin_ctzll(__x) (__x)
define __builtin_ffs(__x) (__x)
define __builtin_ffsl(__x) (__x)
define __builtin_ffsll(__x) (__x)
define __builtin_parity(__x) (__x)
define __builtin_parityl(__x) (__x)
define __builtin_parityll(__x) (__x)
define __builtin_popcount(__x) (__x)
define __builtin_popcountl(__x) (__x)
define __builtin_popcountll(__x) (__x)
define __builtin_add_overflow(__a,__b,__r) (*(__r) = (__a) + (__b))
define __builtin_sub_overflow(__a,__b,__r) (*(__r) = (__a) - (__b))
define __builtin_mul_overflow(__a,__b,__r) (*(__r) = (__a) * (__b))
# numbers with a fraction
define __builtin_inf() 1.0
define __builtin_inff() 1.0f
define __builtin_infl() 1.0L
define __builtin_huge_val() 1.0
define __builtin_huge_valf() 1.0f
define __builtin_huge_vall() 1.0L
define __builtin_nan(__s) ((void)(__s), 0.0)
define __builtin_nanf(__s) ((void)(__s), 0.0f)
define __builtin_nanl(__s) ((void)(__s), 0.0L)
define __builtin_isnan(__x) (__x)
define __builtin_isinf(__x) (__x)
define __builtin_isfinite(__x) (__x)
define __builtin_isnormal(__x) (__x)
define __builtin_signbit(__x) (__x)
# functions of the library, which its headers declare
define __builtin_abort abort
define __builtin_abs abs
define __builtin_exit exit
define __builtin_fabs fabs
define __builtin_fprintf fprintf
define __builtin_labs labs
define __builtin_memchr memchr
define __builtin_memcmp memcmp
define __builtin_memcpy memcpy
define __builtin_memmove memmove
define __builtin_memset memset
define __builtin_printf printf
define __builtin_snprintf snprintf
define __builtin_sprintf sprintf
define __builtin_sqrt sqrt
define __builtin_strchr strchr
define __builtin_strcmp strcmp
define __builtin_strcpy strcpy
define __builtin_strlen strlen
define __builtin_strncmp strncmp
define __builtin_strrchr strrchr
define __builtin_vsnprintf vsnprintf
# atomic operations as plain ones, with all operands in sight
define __sync_synchronize() ((void)0)
define __sync_fetch_and_add(__p,__v) (*(__p) += (__v))
define __sync_fetch_and_sub(__p,__v) (*(__p) -= (__v))
define __sync_fetch_and_or(__p,__v) (*(__p) |= (__v))
define __sync_fetch_and_and(__p,__v) (*(__p) &= (__v))
define __sync_fetch_and_xor(__p,__v) (*(__p) ^= (__v))
define __sync_add_and_fetch(__p,__v) (*(__p) += (__v))
define __sync_sub_and_fetch(__p,__v) (*(__p) -= (__v))
define __sync_or_and_fetch(__p,__v) (*(__p) |= (__v))
define __sync_and_and_fetch(__p,__v) (*(__p) &= (__v))
define __sync_xor_and_fetch(__p,__v) (*(__p) ^= (__v))
define __sync_bool_compare_and_swap(__p,__o,__n) (*(__p) == (__o) ? (*(__p) = (__n), 1) : 0)
define __sync_val_compare_and_swap(__p,__o,__n) (*(__p) == (__o) ? (*(__p) = (__n)) : *(__p))
define __sync_lock_test_and_set(__p,__v) (*(__p) = (__v))
define __sync_lock_release(__p) ((void)(*(__p) = 0))
define __atomic_load_n(__p,__m) ((void)(__m), *(__p))
define __atomic_store_n(__p,__v,__m) ((void)(__m), (void)(*(__p) = (__v)))
define __atomic_load(__p,__r,__m) ((void)(__m), (void)(*(__r) = *(__p)))
define __atomic_store(__p,__v,__m) ((void)(__m), (void)(*(__p) = *(__v)))
define __atomic_exchange_n(__p,__v,__m) ((void)(__m), *(__p) = (__v))
define __atomic_compare_exchange_n(__p,__e,__d,__w,__s,__f) ((void)(__w), (void)(__s), (void)(__f), *(__p) == *(__e) ? (*(__p) = (__d), 1) : (*(__e) = *(__p), 0))
define __atomic_fetch_add(__p,__v,__m) ((void)(__m), *(__p) += (__v))
define __atomic_fetch_sub(__p,__v,__m) ((void)(__m), *(__p) -= (__v))
define __atomic_fetch_or(__p,__v,__m) ((void)(__m), *(__p) |= (__v))
define __atomic_fetch_and(__p,__v,__m) ((void)(__m), *(__p) &= (__v))
define __atomic_fetch_xor(__p,__v,__m) ((void)(__m), *(__p) ^= (__v))
define __atomic_add_fetch(__p,__v,__m) ((void)(__m), *(__p) += (__v))
define __atomic_sub_fetch(__p,__v,__m) ((void)(__m), *(__p) -= (__v))
define __atomic_or_fetch(__p,__v,__m) ((void)(__m), *(__p) |= (__v))
define __atomic_and_fetch(__p,__v,__m) ((void)(__m), *(__p) &= (__v))
define __atomic_test_and_set(__p,__m) ((void)(__p), (void)(__m), 1)
define __atomic_clear(__p,__m) ((void)(__p), (void)(__m))
define __atomic_thread_fence(__m) ((void)(__m))
define __atomic_signal_fence(__m) ((void)(__m))
define __atomic_is_lock_free(__n,__p) ((void)(__n), (void)(__p), 1)
define __atomic_always_lock_free(__n,__p) ((void)(__n), (void)(__p), 1)
