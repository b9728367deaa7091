// Times DPDK's interpreter on a program, over a block in one buffer with a context and scratch: a prologue points R2 and R3
// into it. Emit is an external function that copies its bytes.
//
// filters PROGRAM BLOCK ROUNDS REPEATS    prints R0, the bytes of the group and its frames, and the least time of a block run in
//                                         picoseconds; or refused
#include "programs.h"

enum { BLOCK = 4096, AT_BLOCK = 64, AT_SCRATCH = AT_BLOCK + BLOCK };

static uint8_t memory[AT_SCRATCH + 1024], group[BLOCK];
static uint32_t used, frames;

static uint64_t emit(uint64_t address, uint64_t size, uint64_t c, uint64_t d, uint64_t e) {
  if (used + 2 + size > sizeof group) return 1;
  group[used] = size;
  group[used + 1] = size >> 8;
  memcpy(group + used + 2, (const void *)address, size);
  used += 2 + size;
  frames++;
  return 0;
}

static size_t load_file(const char *name, void *bytes, size_t size) {
  FILE *file = fopen(name, "rb");
  if (!file) exit(2);
  size_t got = fread(bytes, 1, size, file);
  fclose(file);
  return got;
}

int main(int argc, char **argv) {
  if (argc != 5) return 2;
  add(0xbf, 2, 1, 0, 0);          // r2 = r1
  add(0x07, 2, 0, 0, AT_BLOCK);   // r2 += the block's place
  add(0xbf, 3, 1, 0, 0);          // r3 = r1
  add(0x07, 3, 0, 0, AT_SCRATCH); // r3 += the scratch area's place
  length += load_file(argv[1], code + length, sizeof code - 8 * length) / 8;
  load_file(argv[2], memory + AT_BLOCK, BLOCK);
  int rounds = atoi(argv[3]), repeats = atoi(argv[4]);
  struct rte_bpf_xsym emits = {.name = "emit", .type = RTE_BPF_XTYPE_FUNC, .func = {.val = emit, .nb_args = 2,
    .args = {{.type = RTE_BPF_ARG_PTR, .size = 1}, {.type = RTE_BPF_ARG_RAW, .size = 8}},
    .ret = {.type = RTE_BPF_ARG_RAW, .size = 8}}};
  struct rte_bpf_xsym symbols[] = {emits, emits};
  struct rte_bpf_prm prm = {.ins = code, .nb_ins = length, .xsym = symbols, .nb_xsym = 2,
    .prog_arg = {.type = RTE_BPF_ARG_PTR, .size = sizeof memory}};
  struct rte_bpf *bpf = rte_bpf_load(&prm);
  if (!bpf) {
    puts("refused");
    return 1;
  }
  uint64_t r0 = rte_bpf_exec(bpf, memory), least = -1;
  printf("%lu %u %u\n", r0, used, frames);
  for (int round = 0; round < rounds; round++) {
    uint64_t start = now();
    for (int i = 0; i < repeats; i++) {
      memory[0] = i; // another context for each block run
      used = frames = 0;
      r0 += rte_bpf_exec(bpf, memory);
    }
    uint64_t spent = now() - start;
    if (spent < least) least = spent;
  }
  if (rounds && repeats) printf("%lu ps\n", least * 1000 / repeats);
  fprintf(stderr, "%lu\n", r0); // so that no block run is left out
  return 0;
}
