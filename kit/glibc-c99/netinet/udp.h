/* Stands in for glibc's <netinet/udp.h>, whose structure has its members twice in structures without names (C11). Both
   spellings of each stand in the structure itself. */
#ifndef __NETINET_UDP_H
#define __NETINET_UDP_H 1

#include <sys/types.h>
#include <stdint.h>

struct udphdr {
    uint16_t uh_sport, uh_dport, uh_ulen, uh_sum;
    uint16_t source, dest, len, check;
};

#define UDP_CORK 1
#define UDP_ENCAP 100
#define UDP_NO_CHECK6_TX 101
#define UDP_NO_CHECK6_RX 102
#define UDP_SEGMENT 103
#define UDP_GRO 104
#define UDP_ENCAP_ESPINUDP_NON_IKE 1
#define UDP_ENCAP_ESPINUDP 2
#define UDP_ENCAP_L2TPINUDP 3
#define UDP_ENCAP_GTP0 4
#define UDP_ENCAP_GTP1U 5
#define SOL_UDP 17

#endif
