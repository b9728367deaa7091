Which programs `zscli verify` accepts, for blocks of 512 bytes where nothing else is said.

  $ bytes() {  # EMIT [BLOCK]: judges slots in hexadecimal
  >   xxd -r -p > program
  >   zscli verify program --block ${2:-512} --emit $1
  > }
  $ text() {  # EMIT LINE ..: judges a text
  >   emit=$1
  >   shift
  >   printf '%s\n' "$@" > text
  >   zscli asm text program && zscli verify program --block 512 --emit $emit
  > }

A program that emits 8 bytes needs 10.

  $ emits='mov r1, r2
  > mov r2, 8
  > call 1
  > mov r0, 0
  > exit'
  $ text 10 'ldxb r6, [r2+0]' 'jne r6, 7, +3' "$emits"
  accepted 7
  $ text 9 'ldxb r6, [r2+0]' 'jne r6, 7, +3' "$emits"
  refused 4 10
  [3]

A write to R10; a store into the context; a helper that there isn't; an emit of an unknown length, and from an unknown address.

  $ text 0 'mov r10, 0' exit
  refused 0 4
  [3]
  $ text 0 'stxdw [r1+0], r0' exit
  refused 0 6
  [3]
  $ text 0 'call 2' exit
  refused 0 7
  [3]
  $ text 0 'call 1' exit
  refused 0 9
  [3]
  $ text 3 'mov r1, 0' 'mov r2, 1' 'call 1' exit
  refused 2 8
  [3]

A load from nowhere that is jumped over is never done, also where a compare always jumps. Where it may not, the load is refused.

  $ text 0 'ja +1' 'ldxdw r0, [r0+0]' exit
  accepted 3
  $ text 0 'jeq r0, 0, +1' 'ldxdw r0, [r0+0]' exit
  accepted 3
  $ text 0 'ldxb r6, [r2+0]' 'jsgt r6, -1, +2' 'mov r0, 0' exit 'ldxdw r0, [r0+0]' exit
  refused 4 5
  [3]

Jumps backward, and out of the program, however far.

  $ text 0 'ja -5' exit
  refused 0 1
  [3]
  $ text 0 'ja +1' exit
  refused 0 2
  [3]
  $ text 0 'jaw -2147483648' exit
  refused 0 1
  [3]
  $ text 0 'jaw +2147483647' exit
  refused 0 2
  [3]

A half word from the block, masked to 9 bits, is an offset in a block of 512 bytes: a byte can be read there, two bytes can't. In a block of
1024 bytes they can.

  $ masked() { echo "6926000000000000 57060000ff010000 0f62000000000000 $1 b700000000000000 9500000000000000"; }
  $ masked 7120000000000000 | bytes 0
  accepted 6
  $ zscli disasm program
  ldxh r6, [r2+0]
  and r6, 511
  add r2, r6
  ldxb r0, [r2+0]
  mov r0, 0
  exit
  $ masked 6920000000000000 | bytes 0
  refused 3 5
  [3]
  $ masked 6920000000000000 | bytes 0 1024
  accepted 6

A byte that was compared with 99 is at most 99 where the jump isn't taken: 412 bytes after it are in the block, 413 aren't.

  $ compared() { echo "7126000000000000 2506020063000000 0f62000000000000 $1 b700000000000000 9500000000000000"; }
  $ compared 71209c0100000000 | bytes 0
  accepted 6
  $ zscli disasm program
  ldxb r6, [r2+0]
  jgt r6, 99, +2
  add r2, r6
  ldxb r0, [r2+412]
  mov r0, 0
  exit
  $ compared 71209d0100000000 | bytes 0
  refused 3 5
  [3]

A record of 1 to 8 bytes, as the block's first byte says, needs 10 bytes. Of a block that begins with 3 it has 4.

  $ growing='7126000000000000 5706000007000000 0706000001000000 bf21000000000000
  > bf62000000000000 8500000001000000 b700000000000000 9500000000000000'
  $ echo "$growing" | bytes 10
  accepted 8
  $ { printf '\003abcdefg'; head -c 504 /dev/zero; } > block
  $ zscli trace program block --emit 10 | tail -n 1
  exit 0 8 040003616263
  $ echo "$growing" | bytes 9
  refused 5 10
  [3]

The stack has 512 bytes below R10.

  $ echo '79a0f8ff00000000 9500000000000000' | bytes 0
  accepted 2
  $ for offset in -8 -7 -512 -513 -32768; do text 0 "ldxdw r0, [r10$offset]" exit; done
  accepted 2
  refused 0 5
  accepted 2
  refused 0 5
  refused 0 5
  [3]

An address one below the block, and one byte after it.

  $ echo 'b7060000ffffffff 0f62000000000000 7120010000000000 b700000000000000 9500000000000000' | bytes 0
  accepted 5
  $ echo 'b7060000ffffffff 0f62000000000000 7120000000000000 b700000000000000 9500000000000000' | bytes 0
  refused 2 5
  [3]

An address that is kept on the stack is still one when it is loaded again: R2 is kept at R10 - 8 over an emit.

  $ kept() {
  >   echo "7b2af8ff00000000 bf21000000000000 b702000008000000 8500000001000000 $1
  >     79a2f8ff00000000 7120ff0100000000 b700000000000000 9500000000000000" | bytes 10
  > }
  $ kept
  accepted 8
  $ zscli disasm program
  stxdw [r10-8], r2
  mov r1, r2
  mov r2, 8
  call 1
  ldxdw r2, [r10-8]
  ldxb r0, [r2+511]
  mov r0, 0
  exit

A byte that is stored into it, or a whole word that covers a part of it, makes it unknown; a byte beside it doesn't.

  $ kept 720affff00000000
  refused 6 5
  [3]
  $ kept 720af7ff00000000
  accepted 9
  $ kept 7b2af7ff00000000
  refused 6 5
  [3]
