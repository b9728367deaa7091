`zscli verify --facts` lists what is known at each slot: of each register that the instruction reads, and where an address is forgotten.
Blocks have 512 bytes, and nothing may be emitted where nothing else is said.

  $ facts() {  # LINE ..: lists what is known in a text
  >   printf '%s\n' "$@" > text
  >   zscli asm text program && zscli verify program --block 512 --emit 0 --facts
  > }

Every slot of an accepted program is listed, after the lines of `--explain`. For an emit the line says how much was emitted before at most.

  $ printf '%s\n' 'ldxb r6, [r2+0]' 'jne r6, 7, +3' 'mov r1, r2' 'mov r2, 8' 'call 1' 'mov r0, 0' exit > text
  $ zscli asm text program
  $ zscli verify program --block 512 --emit 10 --facts --explain
  accepted 7
  for a block at most 7 steps, and 10 bytes emitted
     0  ldxb r6, [r2+0]  r2 is block + 0
     1  jne r6, 7, +3  r6 is 0 to 255
     2  mov r1, r2  r2 is block + 0
     3  mov r2, 8
     4  call 1  r1 is block + 0, r2 is 8, emitted at most 0
     5  mov r0, 0
     6  exit

Without `--explain` the second line isn't there.

  $ zscli verify program --block 512 --emit 10 --facts | sed -n 1,2p
  accepted 7
     0  ldxb r6, [r2+0]  r2 is block + 0

With `--explain` a refused program has its lines first. The list ends with the slot that is refused, which `>` marks.

  $ zscli verify program --block 512 --emit 9 --facts --explain
  refused 4 10
     4  call 1
  an emit over the limit: behind 0 bytes, 2 for its length and 8 bytes come to 10, and 9 may be emitted
  r1 is block + 0
  r2 is 8
     0  ldxb r6, [r2+0]  r2 is block + 0
     1  jne r6, 7, +3  r6 is 0 to 255
     2  mov r1, r2  r2 is block + 0
     3  mov r2, 8
     4> call 1  r1 is block + 0, r2 is 8, emitted at most 0
  [3]

A sum that forgets an address, a word of the stack that nothing is known of, a slot to which none leads, and ways that meet, on which a
register has different addresses.

  $ facts 'ldxw r6, [r2+0]' 'mov r4, r2' 'add r4, r6' 'ldxdw r5, [r10-8]' 'ja +1' 'mov r0, r4' 'mov r7, r2' 'jeq r6, 0, +1' 'mov r7, r3' \
  >     'ldxb r0, [r7+0]' exit
  refused 9 5
     0  ldxw r6, [r2+0]  r2 is block + 0
     1  mov r4, r2  r2 is block + 0
     2  add r4, r6  r4 is block + 0, r6 is 0 to 4294967295
        forgotten in r4: block + 0; it may be over 2^20 bytes away
     3  ldxdw r5, [r10-8]  r10 is stack + 512
        nothing is known of the word at stack + 504
     4  ja +1
     5  mov r0, r4  no slot leads here
     6  mov r7, r2  r2 is block + 0
     7  jeq r6, 0, +1  r6 is 0 to 4294967295
     8  mov r7, r3  r3 is scratch + 0
     9> ldxb r0, [r7+0]  r7 is any word
        forgotten in r7: block + 0 from slot 7, scratch + 0 from slot 8
  [3]

The other ways to forget an address: a number without bounds, a sum of two addresses, and another operation.

  $ facts 'ldxdw r6, [r2+0]' 'mov r4, r2' 'add r4, r6' 'ldxb r0, [r4+0]' exit
  refused 3 5
     0  ldxdw r6, [r2+0]  r2 is block + 0
     1  mov r4, r2  r2 is block + 0
     2  add r4, r6  r4 is block + 0, r6 is any word
        forgotten in r4: block + 0; nothing bounds the number below 2^63
     3> ldxb r0, [r4+0]  r4 is any word
  [3]
  $ facts 'mov r4, r2' 'add r4, r3' 'ldxb r0, [r4+0]' exit
  refused 2 5
     0  mov r4, r2  r2 is block + 0
     1  add r4, r3  r4 is block + 0, r3 is scratch + 0
        forgotten in r4: block + 0; an address is added or subtracted
     2> ldxb r0, [r4+0]  r4 is any word
  [3]
  $ facts 'mov r4, r2' 'and r4, -8' 'ldxb r0, [r4+0]' exit
  refused 2 5
     0  mov r4, r2  r2 is block + 0
     1  and r4, -8  r4 is block + 0
        forgotten in r4: block + 0; only mov, add and sub of 64 bits keep an address
     2> ldxb r0, [r4+0]  r4 is 0 to 18446744073709551608
  [3]

What is stored on the stack is known when it is loaded again: R7 is the block's address, and R8 a number up to 3.

  $ facts 'stxdw [r10-8], r2' 'ldxb r6, [r2+0]' 'and r6, 3' 'stxdw [r10-16], r6' 'ldxdw r7, [r10-8]' 'ldxdw r8, [r10-16]' 'add r7, r8' \
  >     'ldxb r0, [r7+508]' exit
  accepted 9
     0  stxdw [r10-8], r2  r10 is stack + 512, r2 is block + 0
     1  ldxb r6, [r2+0]  r2 is block + 0
     2  and r6, 3  r6 is 0 to 255
     3  stxdw [r10-16], r6  r10 is stack + 512, r6 is 0 to 3
     4  ldxdw r7, [r10-8]  r10 is stack + 512
     5  ldxdw r8, [r10-16]  r10 is stack + 512
     6  add r7, r8  r7 is block + 0, r8 is 0 to 3
     7  ldxb r0, [r7+508]  r7 is block + 0 to 3
     8  exit
