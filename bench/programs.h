// What the benchmarks beside DPDK share: a program that is made instruction by instruction, files and time.
#include <stdint.h>
#include <stdio.h>
#include <stdlib.h>
#include <string.h>
#include <time.h>
#include <rte_bpf.h>

static struct ebpf_insn code[4096];
static uint32_t length;

static void add(int opcode, int dst, int src, int offset, int imm) {
  code[length++] = (struct ebpf_insn){.code = opcode, .dst_reg = dst, .src_reg = src, .off = offset, .imm = imm};
}

// an 8-byte load and an add of it
static void load_and_add(int i) {
  add(0x79, 4, 6, 8 * i, 0); // r4 = *(u64 *)(r6 + 8 i)
  add(0x0f, 0, 4, 0, 0);     // r0 += r4
}

// a filter's step that branches on a byte
static void branch_on_byte(int i) {
  add(0x71, 4, 6, 10 * i, 0); // r4 = *(u8 *)(r6 + 10 i)
  add(0xa5, 4, 0, 2, 200);    // if r4 < 200 goto +2
  add(0x07, 0, 0, 0, 3);      // r0 += 3
  add(0x05, 0, 0, 1, 0);      // goto +1
  add(0x0f, 0, 4, 0, 0);      // r0 += r4
  add(0x57, 0, 0, 0, 0xffff); // r0 &= 0xffff
}

static void save(const char *folder, const char *name, const void *bytes, size_t size) {
  char path[4096];
  snprintf(path, sizeof path, "%s/%s.bin", folder, name);
  FILE *file = fopen(path, "wb");
  if (!file || fwrite(bytes, 1, size, file) != size || fclose(file)) exit(1);
}

static uint64_t now(void) {
  struct timespec t;
  clock_gettime(CLOCK_MONOTONIC, &t);
  return t.tv_sec * 1000000000ull + t.tv_nsec;
}
