/* Stands in for the kernel's <linux/socket.h>, whose structure has a member without a name (C11). Its members stand in the
   structure itself. */
#ifndef CSCOUT_LINUX_SOCKET_H
#define CSCOUT_LINUX_SOCKET_H

#define _K_SS_MAXSIZE 128

typedef unsigned short __kernel_sa_family_t;

struct __kernel_sockaddr_storage {
    __kernel_sa_family_t ss_family;
    char __data[_K_SS_MAXSIZE - sizeof(unsigned short)];
    void *__align;
};

#define SOCK_SNDBUF_LOCK 1
#define SOCK_RCVBUF_LOCK 2
#define SOCK_BUF_LOCK_MASK (SOCK_SNDBUF_LOCK | SOCK_RCVBUF_LOCK)
#define SOCK_TXREHASH_DEFAULT 255
#define SOCK_TXREHASH_DISABLED 0
#define SOCK_TXREHASH_ENABLED 1

#endif
