// Numbers of 64 and 32 bits, and pairs of them.
#include <stdint.h>

typedef uint64_t u64;
typedef int64_t s64;
typedef uint32_t u32;
typedef int32_t s32;

// No divisor is 0 at either width, and the least number is not divided by -1: C has no answer there.
static const u64 pairs[][2] = {
    {7, 3},
    {0xfffffffffffffff3, 3},
    {0x8000000000000000, 2},
    {0xffffffff80000000, 0x100000004},
    {0x123456789abcdef0, 0xfedcba9876543210},
    {5, 0x41},
    {0x00000000ffffffff, 0xffffffff00000001},
    {0xffffffffffffffff, 0x7fffffffffffffff},
    {0x0000000180000001, 0xffffffffffffffe1},
    {0xdeadbeefcafebabe, 0xdeadbeefcafebabe},
    {0x7fffffff, 0x80000000},
    {0x8000000000000001, 0x000000008000003f},
};
#define N (sizeof pairs / sizeof pairs[0])
