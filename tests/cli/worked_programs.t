Programs as bytes, as text, and step by step.

  $ bytes() { xxd -r -p > program; }
  $ slot() { echo "$1" | bytes; zscli disasm program; }
  $ text() { cat > text; zscli asm text program; }

A program is listed as text, and assembled from it again to the same bytes.

  $ bytes <<'END'
  > 7126000000000000 5506030007000000 bf21000000000000 b702000008000000
  > 8500000001000000 b700000000000000 9500000000000000
  > END
  $ zscli disasm program | tee text
  ldxb r6, [r2+0]
  jne r6, 7, +3
  mov r1, r2
  mov r2, 8
  call 1
  mov r0, 0
  exit
  $ zscli asm text again
  $ cmp program again

Numbers are listed as the machine takes them: a wide one as 16 digits, others with their sign.

  $ text <<'END'
  > lddw r1, -1
  > add r1, 0xffffffff
  > top: ja top
  > stxdw [r10-8], r1
  > END
  $ xxd -p -c 8 program
  18010000ffffffff
  00000000ffffffff
  07010000ffffffff
  0500ffff00000000
  7b1af8ff00000000
  $ zscli disasm program
  lddw r1, 0xffffffffffffffff
  add r1, -1
  ja -1
  stxdw [r10-8], r1

An assembly text that is refused: an operand of the lowest such line comes before a label that isn't there. No program is made.

  $ rm program
  $ printf 'jeq r1, 0, nowhere\nmov r11, 1\n' | text
  text, line 2: "mov r11, 1": the mnemonic takes other operands
  assembly refused 2 2
  [3]
  $ printf 'jeq r1, 0, nowhere\n' | text
  text, line 1: "jeq r1, 0, nowhere": no line has the label that is jumped to
  assembly refused 1 4
  [3]
  $ ls program
  ls: cannot access 'program': No such file or directory
  [2]

Bytes that are no program: a register that there isn't, an unused field that isn't zero, an offset or a width that there isn't, opcodes that
there aren't, opcodes that are left out, half of a wide instruction, and no bytes.

  $ slot 070b000000000000
  program, slot 0: opcode 07h, registers 11 and 0: there are the registers 0 to 10 alone
  program refused 0 24
  [3]
  $ slot 0f21010000000000
  program, slot 0: opcode 0fh, registers 1 and 2, offset 1, immediate 0: a field that the instruction does not use is not 0
  program refused 0 25
  [3]
  $ for slot in 3f21020000000000 dc01000008000000 bc21200000000000; do slot $slot 2>&1 | tail -n 1; done
  program refused 0 27
  program refused 0 27
  program refused 0 27
  $ for code in 99 8c df; do slot ${code}00000000000000 2>&1 | tail -n 1; done
  program refused 0 23
  program refused 0 23
  program refused 0 23
  $ for slot in c300000000000000 1811000000000000; do slot $slot 2>&1 | tail -n 1; done
  program refused 0 28
  program refused 0 28
  $ slot 1801000000000000 2>&1 | tail -n 1
  program refused 0 26
  $ slot '' 2>&1 | tail -n 1
  program refused 0 21

The first program step by step, on a block that begins with 7. It needs 10 bytes to emit and 7 steps; with 9 bytes the emit is a trap,
and with 4 steps it stops there.

  $ { printf '\007'; head -c 511 /dev/zero; } > block
  $ zscli trace again block --emit 10
  0
  1
  2
  3
  4
  5
  6
  exit 0 7 08000700000000000000
  $ zscli trace again block --emit 9
  0
  1
  2
  3
  trap 4 8
  $ zscli trace again block --emit 10 --fuel 4
  0
  1
  2
  3
  fuel

Traps, each with the least of its causes.

  $ trap_of() { text; zscli trace program block --emit 512 | tail -n 1; }
  $ echo 'mov r10, 1' | trap_of
  trap 0 1
  $ printf 'mov r10, 1\nexit\n' | trap_of
  trap 0 3
  $ printf 'stxdw [r1+0], r0\nexit\n' | trap_of
  trap 0 5
  $ printf 'ldxb r0, [r10+0]\nexit\n' | trap_of
  trap 0 4
  $ printf 'mov r2, -1\ncall 1\nexit\n' | trap_of
  trap 1 7
  $ printf 'mov r2, 0\ncall 1\nexit\n' | trap_of
  trap 1 8
  $ printf 'call 2\nexit\n' | trap_of
  trap 0 6

Arithmetic on words. `word` runs instructions, and prints what the last of them leaves in its register.

  $ word() {
  >   printf '%s\n' "$@" exit | text
  >   zscli trace program block --registers | sed -n 's/.* = //p' | tail -n 1
  > }

Division by zero gives zero, and the remainder leaves the word, or its low half.

  $ word 'mov r1, 7' 'mov r2, 0' 'div r1, r2'
  0x0
  $ word 'mov r1, 7' 'mov r2, 0' 'mod r1, r2'
  0x7
  $ word 'lddw r1, 0x100000007' 'mov r2, 0' 'modw r1, r2'
  0x7

Signed division goes toward zero; the least number by -1 is itself.

  $ word 'lddw r1, 0x8000000000000000' 'mov r2, -1' 'sdiv r1, r2'
  0x8000000000000000
  $ word 'lddw r1, 0x8000000000000000' 'mov r2, -1' 'smod r1, r2'
  0x0
  $ word 'mov r1, -13' 'mov r2, 3' 'smod r1, r2'
  0xffffffffffffffff
  $ word 'mov r1, -13' 'mov r2, 3' 'sdiv r1, r2'
  0xfffffffffffffffc
  $ word 'movw r1, 0x80000000' 'mov r2, -1' 'sdivw r1, r2'
  0x80000000

A number in the instruction is extended by its sign, of 32-bit arithmetic not.

  $ word 'mov r1, 10' 'div r1, -1'
  0x0
  $ word 'mov r1, -1' 'divw r1, -1'
  0x1

Shifts are by less than the width, sums of 32 bits lose the rest, and other widths are extended or turned around.

  $ word 'mov r1, 5' 'mov r2, 64' 'lsh r1, r2'
  0x5
  $ word 'movw r1, 0x80000000' 'arshw r1, 4'
  0xf8000000
  $ word 'lddw r1, 0x5ffffffff' 'addw r1, 1'
  0x0
  $ word 'mov r1, 0x80' 'movsx8 r2, r1'
  0xffffffffffffff80
  $ word 'lddw r1, 0x1234567812345678' 'swap16 r1'
  0x7856
  $ word 'lddw r1, 0x11223344aabbccdd' 'be32 r1'
  0xddccbbaa
