// Writes the filter of the benchmark, and times DPDK's interpreter on it.
//
// runs write FOLDER      writes filter.bin for our machine
// runs time BLOCKS ROUNDS REPEATS
//                        prints how many of so many blocks match, and DPDK's least time of a block in nanoseconds
//
// Both get the same instructions, but that the block's address is in R2 for our machine and in R1 for
// DPDK's, and that a block that matches is emitted in part by ours and only counted by DPDK's.
#include "programs.h"

enum { BLOCK = 4096 };

static void filter(int ours) {
  length = 0;
  add(0xbf, 9, ours ? 2 : 1, 0, 0);      // r9 = the block's address
  add(0x71, 6, 9, 0, 0);                 // r6 = *(u8 *)(r9 + 0)
  add(0x61, 7, 9, 16, 0);                // r7 = *(u32 *)(r9 + 16)
  add(0x79, 8, 9, 4088, 0);              // r8 = *(u64 *)(r9 + 4088)
  add(0x57, 7, 0, 0, 0xff);              // r7 &= 0xff
  add(0x0f, 6, 7, 0, 0);                 // r6 += r7
  add(0x57, 8, 0, 0, 0xff);              // r8 &= 0xff
  add(0x0f, 6, 8, 0, 0);                 // r6 += r8
  add(0x55, 6, 0, ours ? 3 : 2, 21);     // if r6 != 21 goto the end
  if (ours) {
    add(0xbf, 1, 9, 0, 0);               // r1 = r9
    add(0xb7, 2, 0, 0, 64);              // r2 = 64
    add(0x85, 0, 0, 0, 1);               // emit
  } else {
    add(0xb7, 0, 0, 0, 1);               // r0 = 1
    add(0x95, 0, 0, 0, 0);               // exit
  }
  add(0xb7, 0, 0, 0, 0);                 // r0 = 0
  add(0x95, 0, 0, 0, 0);                 // exit
}

int main(int argc, char **argv) {
  if (argc == 3) {
    filter(1);
    save(argv[2], "filter", code, 8 * length);
    return 0;
  }
  if (argc != 5) return 2;
  int count = atoi(argv[2]);
  uint8_t *blocks = malloc((size_t)BLOCK * count);
  if (!blocks) return 1;
  for (int i = 0; i < count; i++) memset(blocks + (size_t)i * BLOCK, i % 251, BLOCK);
  uint64_t least = -1, matches = 0;
  int rounds = atoi(argv[3]), repeats = atoi(argv[4]);
  filter(0);
  struct rte_bpf_prm prm = {.ins = code, .nb_ins = length, .prog_arg = {.type = RTE_BPF_ARG_PTR, .size = BLOCK}};
  struct rte_bpf *bpf = rte_bpf_load(&prm);
  if (!bpf) return 1;
  for (int round = 0; round < rounds; round++) {
    uint64_t start = now();
    for (int repeat = 0; repeat < repeats; repeat++) {
      matches = 0;
      for (int i = 0; i < count; i++) matches += rte_bpf_exec(bpf, blocks + (size_t)i * BLOCK);
    }
    uint64_t spent = now() - start;
    if (spent < least) least = spent;
  }
  printf("%lu matches\n%lu ns\n", matches, least / count / repeats);
  return 0;
}
