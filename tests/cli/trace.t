`zscli trace` runs a program on one block, and prints the slot of each instruction that it executes. The last line says how it
ended: by an exit, with R0, the steps and what was emitted; by a trap, with its slot and its cause; or for want of fuel.

  $ asm() { cat > text; zscli asm text program; }
  $ block() { { printf "$1"; head -c 512 /dev/zero; } | head -c 512 > block; }

A program that emits the first 8 bytes of a block that begins with 7.

  $ asm <<'END'
  > ldxb r6, [r2+0]
  > jne r6, 7, +3
  > mov r1, r2
  > mov r2, 8
  > call 1
  > mov r0, 0
  > exit
  > END
  $ block '\7'
  $ zscli trace program block --emit 512
  0
  1
  2
  3
  4
  5
  6
  exit 0 7 08000700000000000000

By default nothing may be emitted.

  $ zscli trace program block
  0
  1
  2
  3
  trap 4 8

With 4 steps of fuel it ends before the emit that would be a trap, as 9 bytes are too few for it.

  $ zscli trace program block --emit 9 --fuel 4
  0
  1
  2
  3
  fuel
  $ zscli trace program block --emit 9 --fuel 5
  0
  1
  2
  3
  trap 4 8

A block that begins with 8 takes 4 steps, and emits nothing.

  $ block '\10'
  $ zscli trace program block --emit 10
  0
  1
  5
  6
  exit 0 4 -

With `--registers` each line has the instruction after its slot, and then what it changed. This program adds 100000007h and the block's
second byte, 2ah, and puts the sum into scratch, which begins at 400000000h. It emits the lowest byte from there.

  $ asm <<'END'
  > lddw r6, 0x100000007
  > ldxb r7, [r2+1]
  > add r6, r7
  > stxdw [r3+8], r6
  > neg r7
  > jsgt r7, 0, +1
  > mov r1, r3
  > add r1, 8
  > mov r2, 1
  > call 1
  > mov r0, 5
  > exit
  > END
  $ block '\0*'
  $ zscli trace program block --emit 3 --registers
     0  lddw r6, 0x0000000100000007  r6 = 0x100000007
     2  ldxb r7, [r2+1]  r7 = 0x2a
     3  add r6, r7  r6 = 0x100000031
     4  stxdw [r3+8], r6
     5  neg r7  r7 = 0xffffffffffffffd6
     6  jsgt r7, 0, +1
     7  mov r1, r3  r1 = 0x400000000
     8  add r1, 8  r1 = 0x400000008
     9  mov r2, 1  r2 = 0x1
    10  call 1  emit 1 byte at scratch + 8  r0 = 0x0
    11  mov r0, 5  r0 = 0x5
    12  exit
  exit 5 12 010031
  $ zscli trace program block --emit 3
  0
  2
  3
  4
  5
  6
  7
  8
  9
  10
  11
  12
  exit 5 12 010031
  $ zscli trace program block --emit 3 --registers --fuel 2
     0  lddw r6, 0x0000000100000007  r6 = 0x100000007
     2  ldxb r7, [r2+1]  r7 = 0x2a
  fuel

The context has the argument at byte 20, and the block's size at byte 16.

  $ asm <<'END'
  > ldxw r6, [r1+20]
  > ldxw r7, [r1+16]
  > exit
  > END
  $ zscli trace program block --registers --argument 77
     0  ldxw r6, [r1+20]  r6 = 0x4d
     1  ldxw r7, [r1+16]  r7 = 0x200
     2  exit
  exit 0 3 -
  $ zscli trace program block --registers | sed -n 1p
     0  ldxw r6, [r1+20]  r6 = 0x0

An emit from the block, which begins at 200000000h. Where only 9 bytes may be emitted it is a trap, and the line says its cause in words.

  $ asm <<'END'
  > mov r1, r2
  > add r1, 16
  > mov r2, 8
  > call 1
  > exit
  > END
  $ zscli trace program block --emit 10 --registers
     0  mov r1, r2  r1 = 0x200000000
     1  add r1, 16  r1 = 0x200000010
     2  mov r2, 8  r2 = 0x8
     3  call 1  emit 8 bytes at block + 16  r0 = 0x0
     4  exit
  exit 0 5 08000000000000000000
  $ zscli trace program block --emit 9 --registers
     0  mov r1, r2  r1 = 0x200000000
     1  add r1, 16  r1 = 0x200000010
     2  mov r2, 8  r2 = 0x8
     3  call 1: an emit of no bytes, or over the limit
  trap 3 8
