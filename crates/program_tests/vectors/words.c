// Prints src/tests/words/vectors.rt: what gcc makes of the operations, on a little-endian host.
// gcc -O1 -fwrapv words.c && ./a.out > ../src/tests/words/vectors.rt && rm a.out && rt fmt
#include "pairs.h"
#include <stdio.h>

#define BINARY(NAME, WIDE, NARROW)                                            \
  static u64 NAME##64(u64 x, u64 y) { s64 a = x, b = y; (void)a; (void)b; return WIDE; } \
  static u64 NAME##32(u32 x, u32 y) { s32 a = x, b = y; (void)a; (void)b; return (u32)(NARROW); }

BINARY(Add, x + y, x + y)
BINARY(Subtract, x - y, x - y)
BINARY(Multiply, x * y, x * y)
BINARY(Divide, x / y, x / y)
BINARY(SignedDivide, a / b, a / b)
BINARY(Or, x | y, x | y)
BINARY(And, x & y, x & y)
BINARY(LeftShift, x << (y & 63), x << (y & 31))
BINARY(RightShift, x >> (y & 63), x >> (y & 31))
BINARY(Modulo, x % y, x % y)
BINARY(SignedModulo, a % b, a % b)
BINARY(Xor, x ^ y, x ^ y)
BINARY(Move, y, y)
BINARY(ArithmeticShift, a >> (y & 63), a >> (y & 31))
BINARY(Negate, -x, -x)

BINARY(Equal, x == y, x == y)
BINARY(Greater, x > y, x > y)
BINARY(GreaterOrEqual, x >= y, x >= y)
BINARY(AnyBitSet, (x & y) != 0, (x & y) != 0)
BINARY(NotEqual, x != y, x != y)
BINARY(SignedGreater, a > b, a > b)
BINARY(SignedGreaterOrEqual, a >= b, a >= b)
BINARY(Less, x < y, x < y)
BINARY(LessOrEqual, x <= y, x <= y)
BINARY(SignedLess, a < b, a < b)
BINARY(SignedLessOrEqual, a <= b, a <= b)

// A list of words in hexadecimal, with a space between them, six on a line.
static void word(size_t i, u64 word) { printf("%lx%s", word, i + 1 == N ? "\", " : i % 6 == 5 ? " \\\n         " : " "); }

static void words(u64 (*wide)(u64, u64), u64 (*narrow)(u32, u32)) {
  printf("\"");
  for (size_t i = 0; i < N; i++) word(i, wide(pairs[i][0], pairs[i][1]));
  printf("\"");
  for (size_t i = 0; i < N; i++) word(i, narrow(pairs[i][0], pairs[i][1]));
}

static void truths(u64 (*wide)(u64, u64), u64 (*narrow)(u32, u32)) {
  for (int half = 0; half < 2; half++) {
    printf("\"");
    for (size_t i = 0; i < N; i++) printf("%d", (int)(half ? narrow(pairs[i][0], pairs[i][1]) : wide(pairs[i][0], pairs[i][1])));
    printf("\", ");
  }
}
#define OPERATION(NAME) printf("(Operation::" #NAME ", "); words(NAME##64, NAME##32); printf("),\n");
#define RELATION(NAME) printf("(Relation::" #NAME ", "); truths(NAME##64, NAME##32); printf("),\n");

// one-operand operations, on the first word of each pair
#define UNARY(TEXT, EXPRESSION)                                               \
  printf("(Arithmetic::" TEXT ", \"");                                        \
  for (size_t i = 0; i < N; i++) { u64 x = pairs[i][0]; word(i, (u64)(EXPRESSION)); } \
  printf("),\n");

int main(void) {
  printf("//! What gcc makes of the operations, printed by `vectors/words.c`.\n\n");
  printf("use instruction_set::{Operation, Relation, SignExtension, Swap, SwapSize, Width};\nuse program_meaning::Arithmetic;\n\n");
  printf("/// The words of the destination and the source.\n");
  printf("pub const PAIRS: &[(u64, u64)] = &[\n");
  for (size_t i = 0; i < N; i++) printf("(0x%lx, 0x%lx),\n", pairs[i][0], pairs[i][1]);
  printf("];\n\n/// What each operation makes of each pair, at 64 and at 32 bits, in hexadecimal.\n");
  printf("pub const OPERATIONS: &[(Operation, &str, &str)] = &[\n");
  OPERATION(Add) OPERATION(Subtract) OPERATION(Multiply) OPERATION(Divide) OPERATION(SignedDivide)
  OPERATION(Or) OPERATION(And) OPERATION(LeftShift) OPERATION(RightShift) OPERATION(Modulo)
  OPERATION(SignedModulo) OPERATION(Xor) OPERATION(Move) OPERATION(ArithmeticShift)
  printf("];\n\n/// Whether each relation holds (1) for each pair, at 64 and at 32 bits.\n");
  printf("pub const RELATIONS: &[(Relation, &str, &str)] = &[\n");
  RELATION(Equal) RELATION(Greater) RELATION(GreaterOrEqual) RELATION(AnyBitSet) RELATION(NotEqual)
  RELATION(SignedGreater) RELATION(SignedGreaterOrEqual) RELATION(Less) RELATION(LessOrEqual)
  RELATION(SignedLess) RELATION(SignedLessOrEqual)
  printf("];\n\n/// What each operation on one word makes of the first of each pair, in hexadecimal.\n");
  printf("pub const UNARY: &[(Arithmetic, &str)] = &[\n");
  UNARY("Negate { width: Width::Bits64 }", Negate64(x, 0))
  UNARY("Negate { width: Width::Bits32 }", Negate32(x, 0))
  UNARY("MoveSigned { extension: SignExtension::Bits8To32 }", (u32)(s32)(int8_t)x)
  UNARY("MoveSigned { extension: SignExtension::Bits16To32 }", (u32)(s32)(int16_t)x)
  UNARY("MoveSigned { extension: SignExtension::Bits8To64 }", (s64)(int8_t)x)
  UNARY("MoveSigned { extension: SignExtension::Bits16To64 }", (s64)(int16_t)x)
  UNARY("MoveSigned { extension: SignExtension::Bits32To64 }", (s64)(s32)x)
  UNARY("SwapBytes { swap: Swap::ToLittle, size: SwapSize::Bits16 }", (uint16_t)x)
  UNARY("SwapBytes { swap: Swap::ToLittle, size: SwapSize::Bits32 }", (u32)x)
  UNARY("SwapBytes { swap: Swap::ToLittle, size: SwapSize::Bits64 }", x)
  UNARY("SwapBytes { swap: Swap::ToBig, size: SwapSize::Bits16 }", __builtin_bswap16(x))
  UNARY("SwapBytes { swap: Swap::ToBig, size: SwapSize::Bits32 }", __builtin_bswap32(x))
  UNARY("SwapBytes { swap: Swap::ToBig, size: SwapSize::Bits64 }", __builtin_bswap64(x))
  UNARY("SwapBytes { swap: Swap::Reverse, size: SwapSize::Bits16 }", __builtin_bswap16(x))
  UNARY("SwapBytes { swap: Swap::Reverse, size: SwapSize::Bits32 }", __builtin_bswap32(x))
  UNARY("SwapBytes { swap: Swap::Reverse, size: SwapSize::Bits64 }", __builtin_bswap64(x))
  printf("];\n");
  return 0;
}
