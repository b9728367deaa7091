// Writes the programs of the benchmark, and times DPDK's interpreter on them.
//
// machine write FOLDER          writes straight.bin, branchy.bin and block.bin for our machine
// machine time NAME STEPS ROUNDS REPEATS
//                               prints R0 and the steps, and DPDK's least time of an instruction in picoseconds
//
// Another number of words ends it with status 2, and a program that DPDK doesn't load with status 1.
//
// Both get the same instructions. Only the register that has the block's address at entry differs:
// R2 for our machine, R1 for DPDK's.
#include "programs.h"

static uint8_t block[4096];

// 8-byte loads and adds in a straight line, all over the block
static void straight(void) {
  for (int i = 0; i < 512; i++) {
    load_and_add(i);
  }
}

// a filter that branches on bytes
static void branchy(void) {
  for (int i = 0; i < 400; i++) {
    branch_on_byte(i);
  }
}

static void make(const char *name, int entry) {
  length = 0;
  add(0xbf, 6, entry, 0, 0); // r6 = the block's address
  add(0xb7, 0, 0, 0, 0);     // r0 = 0
  if (!strcmp(name, "straight")) straight();
  else branchy();
  add(0x95, 0, 0, 0, 0);
}

int main(int argc, char **argv) {
  for (int i = 0; i < 4096; i++) block[i] = i * i * 31 + i / 7;
  if (argc == 3) {
    save(argv[2], "block", block, sizeof block);
    make("straight", 2);
    save(argv[2], "straight", code, 8 * length);
    make("branchy", 2);
    save(argv[2], "branchy", code, 8 * length);
    return 0;
  }
  if (argc != 6) return 2;
  uint64_t steps = strtoull(argv[3], 0, 10), least = -1;
  int rounds = atoi(argv[4]), repeats = atoi(argv[5]);
  make(argv[2], 1);
  struct rte_bpf_prm prm = {.ins = code, .nb_ins = length, .prog_arg = {.type = RTE_BPF_ARG_PTR, .size = sizeof block}};
  struct rte_bpf *bpf = rte_bpf_load(&prm);
  if (!bpf) return 1;
  uint64_t r0 = rte_bpf_exec(bpf, block);
  for (int round = 0; round < rounds; round++) {
    uint64_t start = now();
    for (int i = 0; i < repeats; i++) r0 = rte_bpf_exec(bpf, block);
    uint64_t spent = now() - start;
    if (spent < least) least = spent;
  }
  printf("%lu %lu\n%lu ps\n", r0, steps, least * 1000 / (steps * repeats));
  return 0;
}
