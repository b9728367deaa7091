`zscli verify --explain` says how many steps and bytes an accepted program takes, and why another one is refused: the instruction, what is
wrong with it, and what is known of each register that it reads. Blocks have 512 bytes.

  $ explain() {  # EMIT LINE ..: explains the verdict on a text
  >   emit=$1
  >   shift
  >   printf '%s\n' "$@" > text
  >   zscli asm text program && zscli verify program --block 512 --emit $emit --explain
  > }

Two accepted programs. A record of 8 bytes takes 10 with its length.

  $ explain 0 exit
  accepted 1
  for a block at most 1 step, and 0 bytes emitted
  $ explain 512 'ldxb r6, [r2+0]' 'jne r6, 7, +3' 'mov r1, r2' 'mov r2, 8' 'call 1' 'mov r0, 0' exit
  accepted 7
  for a block at most 7 steps, and 10 bytes emitted

This one emits a record of 1 byte once or twice.

  $ explain 512 'mov r7, r2' 'ldxb r6, [r7+0]' 'jeq r6, 0, +3' 'mov r1, r7' 'mov r2, 1' 'call 1' 'mov r1, r7' 'mov r2, 1' 'call 1' exit
  accepted 10
  for a block at most 10 steps, and 6 bytes emitted

A jump backward says where to. Where that is no slot, it says how many there are.

  $ explain 0 'mov r0, 0' 'ja -2' exit
  refused 1 1
     1  ja -2
  a jump backward: to slot 0
  [3]
  $ explain 0 'jeq r1, r2, -5' exit
  refused 0 1
     0  jeq r1, r2, -5
  a jump backward: to slot -4, of 2 slots
  r1 is context + 0
  r2 is block + 0
  [3]

A jump forward to no instruction: after the last, or into a wide one.

  $ explain 0 'ja +1' exit
  refused 0 2
     0  ja +1
  a jump to no instruction: to slot 2, of 2 slots
  [3]
  $ explain 0 'ja +1' 'lddw r1, 1' exit
  refused 0 2
     0  ja +1
  a jump to no instruction: to slot 2, a wide instruction's second
  [3]

The last instruction isn't an exit.

  $ explain 0 'mov r0, 0'
  refused 0 3
     0  mov r0, 0
  a program that falls off: no instruction stands behind it
  [3]

A write to R10, and a call of a helper that there isn't.

  $ explain 0 'sub r10, r10' exit
  refused 0 4
     0  sub r10, r10
  a write to R10: a program can only read it
  r10 is stack + 512
  [3]
  $ explain 0 'call 2' exit
  refused 0 7
     0  call 2
  a helper other than 1: it calls 2
  [3]

A load at an index that nothing bounds.

  $ explain 0 'ldxh r1, [r2+0]' 'add r2, r1' 'ldxb r0, [r2+0]' exit
  refused 2 5
     2  ldxb r0, [r2+0]
  a load outside: for 1 byte r2 must be block + 0 to 511
  r2 is block + 0 to 65535
  [3]

A load of 2 bytes at an index up to 255, 412 bytes on: byte 510 is the last where 2 bytes begin, and 510 is 98 + 412.

  $ explain 0 'ldxb r6, [r2+0]' 'add r2, r6' 'ldxh r0, [r2+412]' exit
  refused 2 5
     2  ldxh r0, [r2+412]
  a load outside: for 2 bytes r2 must be block - 412 to block + 98
  r2 is block + 0 to 255
  [3]

A load that may be of the byte before the block.

  $ explain 0 'ldxb r6, [r2+0]' 'sub r6, 256' 'add r2, r6' 'ldxb r0, [r2+255]' exit
  refused 3 5
     3  ldxb r0, [r2+255]
  a load outside: for 1 byte r2 must be block - 255 to block + 256
  r2 is block - 256 to block - 1
  [3]

A load of 4 bytes that ends after the 32 of the context.

  $ explain 0 'ldxsw r0, [r1+29]' exit
  refused 0 5
     0  ldxsw r0, [r1+29]
  a load outside: for 4 bytes r1 must be context - 29 to context - 1
  r1 is context + 0
  [3]

Loads from a number, and from any word of the block.

  $ explain 0 'ldxdw r0, [r0+0]' exit
  refused 0 5
     0  ldxdw r0, [r0+0]
  a load outside: r0 is not known to be an address
  r0 is 0
  [3]
  $ explain 0 'ldxdw r6, [r2+0]' 'ldxb r0, [r6+0]' exit
  refused 1 5
     1  ldxb r0, [r6+0]
  a load outside: r6 is not known to be an address
  r6 is any word
  [3]

Stores that end after the stack and after scratch, and one into the block.

  $ explain 0 'stxdw [r10-7], r0' exit
  refused 0 6
     0  stxdw [r10-7], r0
  a store outside, or into the context or the block: for 8 bytes r10 must be stack + 7 to 511
  r10 is stack + 512
  r0 is 0
  [3]
  $ explain 0 'stw [r3+1021], 1' exit
  refused 0 6
     0  stw [r3+1021], 1
  a store outside, or into the context or the block: for 4 bytes r3 must be scratch - 1021 to scratch - 1
  r3 is scratch + 0
  [3]
  $ explain 0 'stb [r2+0], 1' exit
  refused 0 6
     0  stb [r2+0], 1
  a store outside, or into the context or the block: r2 leads to what a program can only read
  r2 is block + 0
  [3]

An emit from before the context, and from a number.

  $ explain 3 'sub r1, 1' 'mov r2, 1' 'call 1' exit
  refused 2 8
     2  call 1
  an emit from an unknown address: r1 must be context + 0 to 32
  r1 is context - 1
  r2 is 1
  [3]
  $ explain 3 'mov r1, 0' 'mov r2, 1' 'call 1' exit
  refused 2 8
     2  call 1
  an emit from an unknown address: r1 is not known to be an address
  r1 is 0
  r2 is 1
  [3]

An emit whose length may be 0, which is no record.

  $ explain 512 'ldxb r6, [r2+0]' 'mov r1, r2' 'mov r2, r6' 'call 1' exit
  refused 3 9
     3  call 1
  an emit of an unknown length: r2 must be 1 to 512
  r1 is block + 0
  r2 is 0 to 255
  [3]

An emit whose length is an address, and one from the end of the stack.

  $ explain 512 'call 1' exit
  refused 0 9
     0  call 1
  an emit of an unknown length: r2 must be 1 to 32
  r1 is context + 0
  r2 is block + 0
  [3]
  $ explain 3 'mov r1, r10' 'mov r2, 1' 'call 1' exit
  refused 2 9
     2  call 1
  an emit of an unknown length: no byte is known to lie at r1
  r1 is stack + 512
  r2 is 1
  [3]

The second of two records of 3 bytes, where 9 bytes may be emitted.

  $ explain 9 'mov r6, r2' 'mov r1, r6' 'mov r2, 3' 'call 1' 'mov r1, r6' 'mov r2, 3' 'call 1' exit
  refused 6 10
     6  call 1
  an emit over the limit: behind 5 bytes, 2 for its length and 3 bytes come to 10, and 9 may be emitted
  r1 is block + 0
  r2 is 3
  [3]
