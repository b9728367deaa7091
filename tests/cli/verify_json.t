`zscli verify --json` prints a verdict as one JSON object. Blocks have 512 bytes.

  $ judge() {  # EMIT LINE ..: judges a text
  >   emit=$1
  >   shift
  >   printf '%s\n' "$@" > text
  >   zscli asm text program && zscli verify program --block 512 --emit $emit --json
  > }

For an accepted program it has how many instructions there are, and how many bytes are emitted for a block at most: here 3 or 6.

  $ judge 512 'mov r7, r2' 'ldxb r6, [r7+0]' 'jeq r6, 0, +3' 'mov r1, r7' 'mov r2, 1' 'call 1' 'mov r1, r7' 'mov r2, 1' 'call 1' exit
  {"accepted":true,"instruction_count":10,"most_emitted":6}

A jump has its target and the number of slots. A wide instruction is one instruction in two slots.

  $ judge 0 'mov r0, 0' 'ja -2' exit
  {"accepted":false,"instruction_count":3,"slot":1,"reason":1,"words":"a jump backward","instruction":"ja -2","target":0,"slot_count":3,"registers":[]}
  [3]
  $ judge 0 'jeq r1, r2, -5' exit
  {"accepted":false,"instruction_count":2,"slot":0,"reason":1,"words":"a jump backward","instruction":"jeq r1, r2, -5","target":-4,"slot_count":2,"registers":[{"register":1,"area":"context","low":0,"high":0},{"register":2,"area":"block","low":0,"high":0}]}
  [3]
  $ judge 0 'ja +1' 'lddw r1, 1' exit
  {"accepted":false,"instruction_count":3,"slot":0,"reason":2,"words":"a jump to no instruction","instruction":"ja +1","target":2,"slot_count":4,"registers":[]}
  [3]

A program that falls off and a write to R10 have no fields of their own. A call has its helper.

  $ judge 0 'mov r0, 0'
  {"accepted":false,"instruction_count":1,"slot":0,"reason":3,"words":"a program that falls off","instruction":"mov r0, 0","registers":[]}
  [3]
  $ judge 0 'sub r10, r10' exit
  {"accepted":false,"instruction_count":2,"slot":0,"reason":4,"words":"a write to R10","instruction":"sub r10, r10","registers":[{"register":10,"area":"stack","low":512,"high":512}]}
  [3]
  $ judge 0 'call 2' exit
  {"accepted":false,"instruction_count":2,"slot":0,"reason":7,"words":"a helper other than 1","instruction":"call 2","helper":2,"registers":[]}
  [3]

A load has the register of its address, its bytes, and where it may point; null where it isn't known to be an address.

  $ judge 0 'ldxb r6, [r2+0]' 'sub r6, 256' 'add r2, r6' 'ldxb r0, [r2+255]' exit
  {"accepted":false,"instruction_count":5,"slot":3,"reason":5,"words":"a load outside","instruction":"ldxb r0, [r2+255]","base":2,"bytes":1,"allowed":{"area":"block","low":-255,"high":256},"registers":[{"register":2,"area":"block","low":-256,"high":-1}]}
  [3]
  $ judge 0 'ldxdw r6, [r2+0]' 'ldxb r0, [r6+0]' exit
  {"accepted":false,"instruction_count":3,"slot":1,"reason":5,"words":"a load outside","instruction":"ldxb r0, [r6+0]","base":6,"bytes":1,"allowed":null,"registers":[{"register":6,"low":0,"high":18446744073709551615}]}
  [3]

So has a store; null also where it leads to what a program can only read.

  $ judge 0 'stxdw [r10-7], r0' exit
  {"accepted":false,"instruction_count":2,"slot":0,"reason":6,"words":"a store outside, or into the context or the block","instruction":"stxdw [r10-7], r0","base":10,"bytes":8,"allowed":{"area":"stack","low":7,"high":511},"registers":[{"register":10,"area":"stack","low":512,"high":512},{"register":0,"low":0,"high":0}]}
  [3]
  $ judge 0 'stb [r2+0], 1' exit
  {"accepted":false,"instruction_count":2,"slot":0,"reason":6,"words":"a store outside, or into the context or the block","instruction":"stb [r2+0], 1","base":2,"bytes":1,"allowed":null,"registers":[{"register":2,"area":"block","low":0,"high":0}]}
  [3]

An emit has where R1 may point; null where R1 isn't known to be an address. `bytes` is 0 for each emit.

  $ judge 3 'sub r1, 1' 'mov r2, 1' 'call 1' exit
  {"accepted":false,"instruction_count":4,"slot":2,"reason":8,"words":"an emit from an unknown address","instruction":"call 1","base":1,"bytes":0,"allowed":{"area":"context","low":0,"high":32},"registers":[{"register":1,"area":"context","low":-1,"high":-1},{"register":2,"low":1,"high":1}]}
  [3]
  $ judge 3 'mov r1, 0' 'mov r2, 0' 'call 1' exit
  {"accepted":false,"instruction_count":4,"slot":2,"reason":8,"words":"an emit from an unknown address","instruction":"call 1","base":1,"bytes":0,"allowed":null,"registers":[{"register":1,"low":0,"high":0},{"register":2,"low":0,"high":0}]}
  [3]

An emit of an unknown length has how many bytes there are from R1 on: here from the start of scratch, and from the end of the stack.

  $ judge 512 'mov r1, r3' 'ldxb r2, [r2+0]' 'call 1' exit
  {"accepted":false,"instruction_count":4,"slot":2,"reason":9,"words":"an emit of an unknown length","instruction":"call 1","longest":1024,"registers":[{"register":1,"area":"scratch","low":0,"high":0},{"register":2,"low":0,"high":255}]}
  [3]
  $ judge 3 'mov r1, r10' 'mov r2, 1' 'call 1' exit
  {"accepted":false,"instruction_count":4,"slot":2,"reason":9,"words":"an emit of an unknown length","instruction":"call 1","longest":0,"registers":[{"register":1,"area":"stack","low":512,"high":512},{"register":2,"low":1,"high":1}]}
  [3]

An emit over the limit has what was emitted before, its own bytes, and the limit.

  $ judge 9 'mov r6, r2' 'mov r1, r6' 'mov r2, 3' 'call 1' 'mov r1, r6' 'mov r2, 3' 'call 1' exit
  {"accepted":false,"instruction_count":8,"slot":6,"reason":10,"words":"an emit over the limit","instruction":"call 1","emitted":5,"record":3,"limit":9,"registers":[{"register":1,"area":"block","low":0,"high":0},{"register":2,"low":3,"high":3}]}
  [3]

With `--explain` and `--facts` it is the same object.

  $ zscli verify program --block 512 --emit 9 --json --explain --facts
  {"accepted":false,"instruction_count":8,"slot":6,"reason":10,"words":"an emit over the limit","instruction":"call 1","emitted":5,"record":3,"limit":9,"registers":[{"register":1,"area":"block","low":0,"high":0},{"register":2,"low":3,"high":3}]}
  [3]

A file that is no program is refused on standard error, as without `--json`.

  $ printf '\225' > program
  $ zscli verify program --block 512 --emit 0 --json > printed
  program, 1 bytes: the length is no multiple of 8 bytes
  program refused 0 20
  [3]
  $ wc -c < printed
  0
