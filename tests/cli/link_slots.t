`zscli link` makes fewer slots than clang's instructions would take. The C is tests/cli/data/slots.c.

  $ xxd -r -p "$ROOT/tests/cli/data/slots.hex" > slots.o
  $ link() { zscli link slots.o --block 512 -o program --function "$@"; }

A called function takes the low 16 bits of a number and adds another one. Of a number that was loaded from two bytes no mask is needed, and
no addition where the other one is 0.

  $ link fields --verbose
  13 slots; compares put in: 0 of accesses, 0 of emits, 0 of the block's size
  $ zscli disasm program | grep -E '^(and|add)'
  add r0, 5

Constant data is put on the stack once, in four words of 4 bytes, though three calls read it.

  $ link three --verbose
  34 slots; compares put in: 0 of accesses, 0 of emits, 0 of the block's size
  $ zscli disasm program | grep -c '^stw \[r10'
  4

So it is before a loop of which each round reads it: 4 stores, a move, 16 rounds of 8 slots, and 4 slots more.

  $ link sixteen --verbose
  137 slots; compares put in: 0 of accesses, 0 of emits, 0 of the block's size
  $ zscli disasm program | grep -c '^stw \[r10'
  4
  $ zscli disasm program | grep -c '^ldxh'
  16

A filter without loops, since clang unrolled its loop, that takes more slots than a program can have.

  $ link follow
  link refused: 5901 slots, and a program has 4096 at most; write less; leave out `#pragma unroll`, where clang unrolled a loop
  [3]
