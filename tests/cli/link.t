`zscli link` makes a program of an object that clang made of C. The C and the objects, in hexadecimal, are in tests/cli/data; the Makefile
there says how they are made.

  $ object() { xxd -r -p "$ROOT/tests/cli/data/$1.hex" > $1.o; }
  $ for name in guarded lines loop refused store; do object $name; done
  $ change() {  # NAME BYTE OCTAL: another object, with another byte there
  >   cp $1.o changed.o
  >   printf "\\$3" | dd of=changed.o bs=1 seek=$2 conv=notrunc status=none
  > }

A function in which nothing has to change: the program is the function's bytes. Nothing is printed.

  $ zscli link lines.o --block 512 -o lines.bin
  $ dd if=lines.o bs=8 skip=8 count=8 status=none | cmp - lines.bin
  $ zscli disasm lines.bin
  ldxb r1, [r2+1]
  jlt r1, 10, +4
  add r2, r1
  mov r1, r2
  mov r2, 5
  call 1
  mov r0, 0
  exit
  $ zscli verify lines.bin --block 512 --emit 7
  accepted 8

`--function` names the function to start with. `--verbose` prints how many slots there are, and how many compares of each kind.

  $ rm lines.bin
  $ zscli link lines.o --block 512 --output lines.bin --function filter --verbose
  8 slots; compares put in: 0 of accesses, 0 of emits, 0 of the block's size
  $ dd if=lines.o bs=8 skip=8 count=8 status=none | cmp - lines.bin

An access whose address isn't known to be in the block has a compare before it. Here the first two bytes of a block say which byte is read.
Where there is no such byte, the block's run ends there with 7001h, which is 28673.

  $ link() { zscli link guarded.o --block 512 -o program --function "$@"; }
  $ block() { { printf "$1"; head -c 512 /dev/zero; } | head -c 512 > block; }
  $ run() { block "$1"; zscli trace program block --emit 512 | tail -n 1; }
  $ link field --verbose
  guard: guarded.c, line 14, in field: a guard ends the run where 1 byte isn't within the 512 of the block; see to it just before, as by `if (offset > 511) return 0;`
  27 slots; compares put in: 1 of accesses, 0 of emits, 0 of the block's size
  $ zscli disasm program
  stxdw [r10-8], r2
  stxdw [r10-16], r3
  stxdw [r10-32], r1
  ldxh r1, [r2+0]
  add r2, r1
  ldxdw r0, [r10-8]
  sub r2, r0
  jgt r2, 511, +4
  add r2, r0
  ldxb r0, [r2+0]
  and r0, 15
  exit
  mov r0, 268894209
  ldxdw r1, [r10-32]
  ldxw r1, [r1+8]
  ldxdw r2, [r10-16]
  stxdw [r2+1016], r1
  mov r1, r0
  and r1, 65535
  stxw [r2+1008], r1
  rsh r0, 16
  mov r1, r0
  and r1, 4095
  stxw [r2+1012], r1
  rsh r0, 12
  add r0, 28672
  exit
  $ run '\2\0\5'
  exit 5 12 -
  $ run '\377\1'
  exit 0 12 -
  $ run '\0\2'
  exit 28673 23 -

So is an emit whose length isn't known: 7002h, where it would be of no byte, or end after the block.

  $ link record --verbose
  guard: guarded.c, line 20, in record: a guard ends the run where a record has no byte; see to it just before, as by `if (length == 0) return 0;`
  guard: guarded.c, line 20, in record: a guard ends the run where a record has more than the 510 bytes of its area from its address on; see to it just before, as by `if (length > 510) return 0;`
  27 slots; compares put in: 0 of accesses, 2 of emits, 0 of the block's size
  $ run '\3\0abc'
  exit 0 10 0300616263
  $ run '\0\0'
  exit 28674 22 -
  $ run '\377\1'
  exit 28674 22 -

A program that asks for the block's size ends with 7003h on blocks of another size than that of `--block`.

  $ link last --verbose
  26 slots; compares put in: 0 of accesses, 0 of emits, 1 of the block's size
  $ run ''
  exit 0 11 010000
  $ head -c 1024 /dev/zero > block
  $ zscli trace program block --emit 512 | tail -n 1
  exit 28675 19 -

A loop that can be left early, and has more rounds than there are slots for, is refused, with the line of the jump back.

  $ rm program
  $ link entries
  link refused: guarded.c, line 36, in entries: a loop of 512 rounds, which take 8174 of 8177 slots, and a program has 4096 at most; give it fewer rounds, or less in each, or link with --cut-loops
  [3]
  $ ls program
  ls: cannot access 'program': No such file or directory
  [2]

With `--cut-loops` it has as many rounds as there are slots for. A block that needs more ends with 7004h. `--strict` wants no such loop, and
no guard of the block's size either.

  $ link entries --cut-loops --strict
  link refused: guarded.c, line 36, in entries: there is room for 248 rounds of a loop: a block that needs more ends its run with R0 = 7004h
  [3]
  $ link last --strict
  link refused: guarded.c, line 27, in last: a guard ends the run where a block has other than 512 bytes; write 512 in place of the size that the context has
  [3]
  $ ls program
  ls: cannot access 'program': No such file or directory
  [2]

  $ link entries --verbose --cut-loops
  cut: guarded.c, line 36, in entries: there is room for 248 rounds of a loop: a block that needs more ends its run with R0 = 7004h
  3979 slots; compares put in: 0 of accesses, 0 of emits, 0 of the block's size
  $ zscli verify program --block 512 --emit 0
  accepted 3979
  $ run '\4t..\3a.\2t'
  exit 2 45 -
  $ run "$(head -c 512 /dev/zero | tr '\0' '\1')"
  exit 28676 3978 -

A constant text that a called function chooses.

  $ link texts --verbose
  15 slots; compares put in: 0 of accesses, 0 of emits, 0 of the block's size
  $ run '\2'
  exit 0 13 04006576656e
  $ run '\3'
  exit 0 15 04006f646421

Where several functions aren't static, one has to be named. The sentence names two of them.

  $ rm program
  $ zscli link guarded.o --block 512 -o program
  link refused: several functions that aren't static, as field and record; name the one to start with by --function
  [3]
  $ ls program
  ls: cannot access 'program': No such file or directory
  [2]

A loop that has too many rounds. The sentence says where it is, what is wrong, and what to write.

  $ grep -n 'for (' "$ROOT/tests/cli/data/loop.c"
  6:    for (int i = 0; i < 4096; i++)
  $ zscli link loop.o --block 4096 -o program
  link refused: loop.c, line 6, in filter: a loop that isn't over after 1365 rounds, for which a program of 4096 slots has no room; give it fewer rounds, or less in each, and a constant bound if it has none; one that can be left early can be linked with --cut-loops
  [3]
  $ zscli link loop.o --block 4096 -o program --cut-loops
  link refused: loop.c, line 6, in filter: a loop that isn't over after 1365 rounds, for which a program of 4096 slots has no room; give it fewer rounds, or less in each, and a constant bound if it has none
  [3]
  $ zscli link loop.o --block 4096 -o program --function other
  link refused: no function other
  [3]

Where the table of lines is damaged, it has the slot of the function instead of the line.

  $ change loop 164 377
  $ zscli link changed.o --block 4096 -o program
  link refused: filter, slot 9: a loop that isn't over after 1365 rounds, for which a program of 4096 slots has no room; give it fewer rounds, or less in each, and a constant bound if it has none; one that can be left early can be linked with --cut-loops; behind `clang -g` the line is told
  [3]

Other functions of which no program is made.

  $ refuse() { zscli link refused.o --block 512 -o program --function $1; }
  $ refuse counts
  link refused: refused.c, line 12, in counts: count: an address of data that can be changed; call functions of this file, and keep what changes on the stack or in scratch
  [3]
  $ refuse finds
  link refused: refused.c, line 18, in finds: memchr: calls, or takes the address of, what is not in the object; write the function into the file; of the C library there are memcpy, memset and memcmp
  [3]
  $ refuse compares
  link refused: refused.c, line 23, in compares: memcmp: a length that is no small constant; give it a constant up to 512, or write a loop
  [3]
  $ refuse adds
  link refused: refused.c, line 28, in adds: the instruction is left out here; write it without atomics, and for -mcpu=v2, v3 or v4
  [3]
  $ refuse circles
  link refused: refused.c, line 33, in turns: calls that are too deep, or that lead in a circle; write it as a loop, or let fewer functions call one another
  [3]
  $ refuse frames
  link refused: refused.c, line 46, in inner: no room on the stack for its variables, beside those of its callers; put less on the stack, or into scratch
  [3]
  $ refuse tables
  link refused: more constant data than the stack has room for; write shorter tables and texts, or smaller numbers in them
  [3]

An object whose only function is static, which one byte of the object says. Where it is named, a program is made of it.

  $ change lines 356 2
  $ zscli link changed.o --block 512 -o program
  link refused: no function that isn't static; write one, which is given the context, the block and scratch
  [3]
  $ zscli link changed.o --block 512 -o static.bin --function filter
  $ cmp static.bin lines.bin

Files that are no object of eBPF.

  $ printf 'long' > short.o
  $ zscli link short.o --block 512 -o program
  link refused: short.o: not an ELF file
  [3]
  $ cp "$ROOT/tests/cli/data/guarded.c" text.o
  $ zscli link text.o --block 512 -o program
  link refused: text.o: not an ELF file
  [3]
  $ change lines 4 1
  $ zscli link changed.o --block 512 -o program
  link refused: changed.o: ELF header: byte 4: not the class of objects of 64 bits
  [3]
  $ change lines 18 76
  $ zscli link changed.o --block 512 -o program
  link refused: changed.o: ELF header: byte 18: not an object of eBPF
  [3]

Objects with a wrong byte in a section's header, in a symbol and in a relocation.

  $ change lines 585 1
  $ zscli link changed.o --block 512 -o program
  link refused: changed.o: section 2: has a name behind the names of sections
  [3]
  $ change lines 353 1
  $ zscli link changed.o --block 512 -o program
  link refused: changed.o: symbol 5: has a name behind the names of symbols
  [3]
  $ change lines 384 5
  $ zscli link changed.o --block 512 -o program
  link refused: changed.o: section 4, relocation 0: has a type that no relocation of eBPF has
  [3]

No file is made in any of these cases.

  $ ls program
  ls: cannot access 'program': No such file or directory
  [2]

A store into the block: no program is made, since `verify` would refuse it. The sentence says where, and what to write instead.

  $ grep -n 'block.0' "$ROOT/tests/cli/data/store.c"
  4:    block[0] = 1;
  $ zscli link store.o --block 512 -o store.bin
  link refused: store.c, line 4, in filter: verify refuses slot 7 of the program, a store outside, or into the context or the block; store to the stack or to scratch, at an offset that is compared with a constant or masked just before
  [3]
  $ ls store.bin
  ls: cannot access 'store.bin': No such file or directory
  [2]

So is a call of a helper other than 1.

  $ zscli link refused.o --block 512 -o program --function helps
  link refused: refused.c, line 74, in helps: verify refuses slot 1 of the program, a helper other than 1; call no helper but emit
  [3]

Files that fail, standard output that takes nothing, a block size that there isn't, and no program to write.

  $ zscli link gone.o --block 512 -o program
  gone.o: no such file or folder
  cannot read gone.o
  [1]
  $ zscli link lines.o --block 512 -o none/program
  none/program: no such file or folder
  cannot write none/program
  [1]
  $ zscli link lines.o --block 512 -o unprinted --verbose > /dev/full
  -: no room is left
  cannot write -
  [1]
  $ ls unprinted
  ls: cannot access 'unprinted': No such file or directory
  [2]
  $ zscli link gone.o --block 513 -o program
  a block of 513 bytes: the block size is no power of 2 from 512 to 16384
  geometry refused 1
  [3]
  $ zscli link lines.o --block 512
  error: the following required arguments were not provided:
    --output <PROGRAM>
  
  Usage: zscli link --block <B> --output <PROGRAM> <OBJECT>
  
  For more information, try '--help'.
  [2]
