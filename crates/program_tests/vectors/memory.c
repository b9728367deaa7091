// Prints src/tests/vectors.rt: what gcc makes of loads and stores, on a little-endian host.
// gcc -O1 -fwrapv memory.c && ./a.out > ../src/tests/vectors.rt && rm a.out
// The words that are stored and the immediates are the firsts and the seconds of each third pair.
#include "../../program_meaning/vectors/pairs.h"
#include <stdio.h>
#include <string.h>

static unsigned char block[512];

static u64 slot(int opcode, int dst, int src, int offset, int imm) {
  unsigned char b[8] = {opcode, dst | src << 4, offset, offset >> 8, imm, imm >> 8, imm >> 16, imm >> 24};
  u64 text = 0;
  for (int i = 0; i < 8; i++) text = text << 8 | b[i];
  return text;
}

static void load(int opcode, int offset, u64 word) {
  printf("%016lx %lx\n", slot(opcode, 0, 2, offset, 0), word);
}

#define LOAD(OPCODE, TYPE, WIDE)                                              \
  for (int offset = 3; offset < 512 - 8; offset += 167) { TYPE n; memcpy(&n, block + offset, sizeof n); load(OPCODE, offset, (u64)(WIDE)n); }

static unsigned char scratch[32];

#define STORE(OPCODE, TYPE)                                                   \
  for (size_t i = 0; i < N; i += 3) {                                         \
    TYPE n = pairs[i][0]; u64 after; int offset = 8 + i % 5;                  \
    memset(scratch, 0, 32); memcpy(scratch + offset, &n, sizeof n); memcpy(&after, scratch + 8, 8); \
    printf("%016lx %016lx %016lx %016lx %lx\n",                               \
           slot(0x18, 4, 0, 0, pairs[i][0]), slot(0, 0, 0, 0, pairs[i][0] >> 32), \
           slot(OPCODE, 3, 4, offset, 0), slot(0x79, 0, 3, 8, 0), after);     \
  }

#define STORE_IMMEDIATE(OPCODE, TYPE)                                         \
  for (size_t i = 0; i < N; i += 3) {                                         \
    s32 imm = pairs[i][1]; TYPE n = (s64)imm; u64 after; int offset = 8 + i % 7; \
    memset(scratch, 0, 32); memcpy(scratch + offset, &n, sizeof n); memcpy(&after, scratch + 8, 8); \
    printf("%016lx %016lx %lx\n",                                             \
           slot(OPCODE, 3, 0, offset, imm), slot(0x79, 0, 3, 8, 0), after);   \
  }

int main(void) {
  for (int i = 0; i < 512; i++) block[i] = i * 37 + 11;
  printf("//! What gcc makes of loads and stores, printed by `vectors/memory.c`: the slots of a program but for its EXIT, and R0 at the end.\n\n");
  printf("/// Loads from a block whose byte i is 37 i + 11, by R2.\npub const LOADS: &str = \"\\\n");
  LOAD(0x61, u32, u64) LOAD(0x69, uint16_t, u64) LOAD(0x71, uint8_t, u64) LOAD(0x79, u64, u64)
  LOAD(0x81, s32, s64) LOAD(0x89, int16_t, s64) LOAD(0x91, int8_t, s64)
  printf("\";\n\n/// Stores of a register into scratch by R3, read back.\npub const STORES: &str = \"\\\n");
  STORE(0x63, u32) STORE(0x6b, uint16_t) STORE(0x73, uint8_t) STORE(0x7b, u64)
  printf("\";\n\n/// Stores of an immediate into scratch by R3, read back.\npub const IMMEDIATE_STORES: &str = \"\\\n");
  STORE_IMMEDIATE(0x62, u32) STORE_IMMEDIATE(0x6a, uint16_t) STORE_IMMEDIATE(0x72, uint8_t) STORE_IMMEDIATE(0x7a, u64)
  printf("\";\n");
  return 0;
}
