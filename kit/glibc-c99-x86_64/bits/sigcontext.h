/* Stands in for glibc's header on x86_64, which <signal.h> reaches and whose structure has a member without a name (C11).
   Its first name stands in the structure itself, the other is left out. */
#ifndef _BITS_SIGCONTEXT_H
#define _BITS_SIGCONTEXT_H 1

#include <bits/types.h>

#define FP_XSTATE_MAGIC1 0x46505853U
#define FP_XSTATE_MAGIC2 0x46505845U
#define FP_XSTATE_MAGIC2_SIZE sizeof(FP_XSTATE_MAGIC2)

struct _fpx_sw_bytes {
    __uint32_t magic1, extended_size;
    __uint64_t xstate_bv;
    __uint32_t xstate_size;
};
struct _fpreg {
    unsigned short significand[4], exponent;
};
struct _fpxreg {
    unsigned short significand[4], exponent;
};
struct _xmmreg {
    __uint32_t element[4];
};
struct _fpstate {
    __uint16_t cwd, swd, ftw, fop;
    __uint64_t rip, rdp;
    __uint32_t mxcsr, mxcr_mask;
    struct _fpxreg _st[8];
    struct _xmmreg _xmm[16];
};
struct sigcontext {
    __uint64_t r8, r9, r10, r11, r12, r13, r14, r15, rdi, rsi, rbp, rbx, rdx, rax, rcx, rsp, rip, eflags;
    unsigned short cs, gs, fs;
    __uint64_t err, trapno, oldmask, cr2;
    struct _fpstate *fpstate;
};
struct _xsave_hdr {
    __uint64_t xstate_bv;
};
struct _ymmh_state {
    __uint32_t ymmh_space[64];
};
struct _xstate {
    struct _fpstate fpstate;
    struct _xsave_hdr xstate_hdr;
    struct _ymmh_state ymmh;
};

#endif
