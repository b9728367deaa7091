Programs, texts of programs, output blocks and command files that are refused: a sentence and a line for scripts, on standard error. What
is printed to standard output is marked.

  $ zscli() { command zscli "$@" > printed; status=$?; sed 's/^/out: /' printed; return $status; }

A program of 7 bytes, of none, and of too many.

  $ exit='\225\0\0\0\0\0\0\0'
  $ printf '\225\0\0\0\0\0\0' > p
  $ zscli disasm p
  p, 7 bytes: the length is no multiple of 8 bytes
  program refused 0 20
  [3]
  $ : > p
  $ zscli disasm p
  p, 0 bytes: there is no instruction
  program refused 0 21
  [3]
  $ for it in $(seq 4097); do printf $exit; done > p
  $ zscli disasm p
  p, 32776 bytes: there are more than 4096 slots
  program refused 0 22
  [3]

Opcodes, registers and fields that no instruction has.

  $ printf $exit'\0\0\0\0\0\0\0\0' > p
  $ zscli disasm p
  p, slot 1: opcode 00h: no instruction has this opcode
  program refused 1 23
  [3]
  $ printf '\215\0\0\0\0\0\0\0' > p
  $ zscli disasm p
  p, slot 0: opcode 8dh: a call by register, which RFC 9669 does not have
  program refused 0 23
  [3]
  $ printf '\277\33\0\0\0\0\0\0' > p
  $ zscli disasm p
  p, slot 0: opcode bfh, registers 11 and 1: there are the registers 0 to 10 alone
  program refused 0 24
  [3]
  $ printf '\225\0\0\0\377\377\377\377' > p
  $ zscli disasm p
  p, slot 0: opcode 95h, registers 0 and 0, offset 0, immediate -1: a field that the instruction does not use is not 0
  program refused 0 25
  [3]
  $ printf '\30\1\0\0\5\0\0\0\0\0\1\0\0\0\0\0' > p
  $ zscli disasm p
  p, slot 0: opcode 18h, registers 1 and 0, offset 0: a field that the instruction does not use is not 0, here or in the second slot
  program refused 0 25
  [3]
  $ printf '\30\0\0\0\0\0\0\0' > p
  $ zscli disasm p
  p, slot 0: opcode 18h: a wide instruction lacks its second slot
  program refused 0 26
  [3]
  $ printf '\324\3\0\0\10\0\0\0' > p
  $ zscli disasm p
  p, slot 0: opcode d4h, registers 3 and 0, offset 0, immediate 8: a field has a value that the instruction cannot have
  program refused 0 27
  [3]

Instructions that are left out.

  $ printf '\30\20\0\0\0\0\0\0\0\0\0\0\0\0\0\0' > p
  $ zscli disasm p
  p, slot 0: opcode 18h: a wide instruction that loads something else than a number, which is left out here
  program refused 0 28
  [3]
  $ printf '\40\0\0\0\0\0\0\0' > p
  $ zscli disasm p
  p, slot 0: opcode 20h: a packet load, which is left out here
  program refused 0 28
  [3]
  $ printf '\205\20\0\0\1\0\0\0' > p
  $ zscli disasm p
  p, slot 0: opcode 85h: a call of something else than a helper by its number, which is left out here
  program refused 0 28
  [3]
  $ printf '\333\0\0\0\0\0\0\0' > p
  $ zscli disasm p
  p, slot 0: opcode dbh: an atomic operation, which is left out here
  program refused 0 28
  [3]

`verify`, `trace` and `disasm` refuse a program alike.

  $ head -c 512 /dev/zero > block
  $ zscli verify p --block 512 --emit 0
  p, slot 0: opcode dbh: an atomic operation, which is left out here
  program refused 0 28
  [3]
  $ zscli trace p block
  p, slot 0: opcode dbh: an atomic operation, which is left out here
  program refused 0 28
  [3]

An object is called so, whatever length it has.

  $ for it in 1 2 3 4 5 6 7 8 9; do printf '\177ELF\2\1\1\0'; done > p.o
  $ zscli verify p.o --block 512 --emit 66
  p.o, an ELF file, and no program: `zscli link` makes one of an object
  program refused 0 25
  [3]
  $ zscli entry load --slot 0 --program p.o --emit 66
  p.o, an ELF file, and no program: `zscli link` makes one of an object
  program refused 0 23
  [3]
  $ printf '\177ELF\2\1\1\0\0' > p.o
  $ zscli disasm p.o
  p.o, an ELF file, and no program: `zscli link` makes one of an object
  program refused 0 20
  [3]

A file that begins with four other bytes is no object. `entry load` looks at nothing else of a program.

  $ printf '\177ELE\177ELE' > p.o
  $ zscli disasm p.o
  p.o, slot 0: opcode 7fh, registers 5 and 4, offset 17740, immediate 1162626431: a field that the instruction does not use is not 0
  program refused 0 25
  [3]
  $ zscli entry load --slot 0 --program p.o --emit 66 --into q
  $ cut -d ' ' -f 1,2,4 q
  submit 1 7f454c457f454c45

Texts with each fault but a label too far away, which no program of 4096 slots has. No program is made.

  $ asm() { printf "$1" > t; zscli asm t made; }
  $ asm 'exit\n next: sum r1, r2 ; both'
  t, line 2: "next: sum r1, r2 ; both": a mnemonic is expected as the first word, or behind the label
  assembly refused 2 1
  [3]
  $ asm 'mov r11, 1'
  t, line 1: "mov r11, 1": the mnemonic takes other operands
  assembly refused 1 2
  [3]
  $ asm 'mov r1, 4294967296'
  t, line 1: "mov r1, 4294967296": a number is too small or too great for its field
  assembly refused 1 3
  [3]
  $ asm 'exit\nja nowhere'
  t, line 2: "ja nowhere": no line has the label that is jumped to
  assembly refused 2 4
  [3]
  $ asm 'a: exit\na: exit'
  t, line 2: "a: exit": an earlier line has the same label
  assembly refused 2 5
  [3]
  $ { yes exit | head -n 4096; printf 'last: exit'; } > t
  $ zscli asm t made
  t, line 4097: "last: exit": the instruction ends behind slot 4095, the last that a program can have
  assembly refused 4097 7
  [3]
  $ asm 'exit ; \303\251'
  t, line 1: "exit ; \xc3\xa9": only ASCII text is expected
  assembly refused 1 8
  [3]
  $ ls made
  ls: cannot access 'made': No such file or directory
  [2]

Output blocks: a frame that doesn't end in its block, a byte after the last frame, and a block that isn't whole.

  $ zeros() { head -c "$1" /dev/zero; }
  $ { printf '\3\0abc'; zeros 507; printf '\377\1'; zeros 510; } > b
  $ zscli unpack b --block 512
  b, byte 512: ffh; a frame that ends in its block, or zeros to its end, are expected
  frame refused 512
  [3]
  $ { printf '\3\0abc'; zeros 506; printf '\1'; } > b
  $ zscli unpack b --block 512
  b, byte 511: 01h; a frame that ends in its block, or zeros to its end, are expected
  frame refused 511
  [3]
  $ zeros 513 > b
  $ zscli unpack b --block 512
  b, byte 512: 1 of the 512 bytes of a block; whole blocks are expected
  frame refused 512
  [3]
  $ zscli unpack b --block 513
  a block of 513 bytes: the block size is no power of 2 from 512 to 16384
  geometry refused 1
  [3]

A command file: the event of the line before isn't done either.

  $ zscli format image --block 512 --zones 4 --size 8 --capacity 6 --open 2 --active 3
  $ printf 'fault 0 readonly\ntrun 0\n' > events
  $ zscli exec image events
  events, line 2: "trun 0": no such event; submit, turn or fault is expected
  line 2 refused
  [3]
  $ zscli zones image
  out: 0 empty 0
  out: 1 empty 0
  out: 2 empty 0
  out: 3 empty 0
