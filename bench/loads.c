// Writes programs to load, and times DPDK's load of them, which verifies and compiles.
//
// loads write FOLDER               writes NAME.bin of each program for our verifier
// loads time NAME ROUNDS REPEATS   prints the number of instructions and DPDK's least time of a load
//                                  in nanoseconds
//
// Both get the same instructions. Only the register that has the block's address at entry differs:
// R2 for our machine, R1 for DPDK's.
#include "programs.h"

// 8-byte loads and adds in a straight line, all over the block
static void straight(uint32_t slots) {
  for (int i = 0; length + 3 <= slots; i = (i + 1) % 512) {
    load_and_add(i);
  }
}

// a filter that branches on bytes: two jumps forward in six instructions
static void branchy(uint32_t slots) {
  for (int i = 0; length + 7 <= slots; i = (i + 1) % 400) {
    branch_on_byte(i);
  }
}

// words kept on the stack, all 64 of them known, between branches
static void spilling(uint32_t slots) {
  for (int i = 0; i < 64; i++) add(0x7b, 10, 6, -8 * i - 8, 0); // *(u64 *)(r10 - 8 i - 8) = r6
  for (int i = 0; length + 9 <= slots; i = (i + 1) % 400) {
    int at = -8 * (i % 64) - 8;
    add(0x7b, 10, 6, at, 0); // *(u64 *)(r10 + at) = r6
    add(0x79, 6, 10, at, 0); // r6 = *(u64 *)(r10 + at)
    branch_on_byte(i);
  }
}

static const struct { const char *name; void (*body)(uint32_t); uint32_t slots; } programs[] = {
  {"straight-1000", straight, 1000},
  {"straight-4000", straight, 4000},
  {"branchy-1000", branchy, 1000},
  {"branchy-4000", branchy, 4000},
  {"spilling-4000", spilling, 4000},
};

static void make(int program, int entry) {
  length = 0;
  add(0xbf, 6, entry, 0, 0); // r6 = the block's address
  add(0xb7, 0, 0, 0, 0);     // r0 = 0
  programs[program].body(programs[program].slots);
  while (length + 1 < programs[program].slots) add(0xb7, 5, 0, 0, 0); // r5 = 0
  add(0x95, 0, 0, 0, 0);
}

static void load(void) {
  struct rte_bpf_prm prm = {.ins = code, .nb_ins = length, .prog_arg = {.type = RTE_BPF_ARG_PTR, .size = 4096}};
  struct rte_bpf *bpf = rte_bpf_load(&prm);
  if (!bpf) exit(1);
  rte_bpf_destroy(bpf);
}

int main(int argc, char **argv) {
  const int count = sizeof programs / sizeof *programs;
  if (argc == 3) {
    for (int i = 0; i < count; i++) {
      make(i, 2);
      save(argv[2], programs[i].name, code, 8 * length);
    }
    return 0;
  }
  if (argc != 5) return 2;
  int rounds = atoi(argv[3]), repeats = atoi(argv[4]);
  for (int i = 0; i < count; i++) {
    if (strcmp(argv[2], programs[i].name)) continue;
    make(i, 1);
    uint64_t least = -1;
    for (int round = 0; round < rounds; round++) {
      uint64_t start = now();
      for (int j = 0; j < repeats; j++) load();
      uint64_t spent = now() - start;
      if (spent < least) least = spent;
    }
    printf("accepted %u\n%lu ns\n", length, least / repeats);
    return 0;
  }
  return 2;
}
