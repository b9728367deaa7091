/* Linux's names for what pifnjarl.h has. */
#include "../../pifnjarl.h"

typedef unsigned char __u8;
typedef unsigned short __u16;
typedef unsigned int __u32;
typedef unsigned long long __u64;
typedef int __s32;

#define __always_inline inline __attribute__((always_inline))
#define bpf_ntohs(x) __builtin_bswap16(x)
#define bpf_ntohl(x) __builtin_bswap32(x)
#define SEC(name) __attribute__((used))
