`-` is standard input, for a file that a command only reads.

  $ zscli format image --block 512 --zones 4 --size 8 --capacity 6 --open 2 --active 3
  $ printf 'turn 0\n' | zscli exec image -
  idle
  $ printf 'mov r0, 0\nexit\n' | zscli asm - program
  $ zscli disasm - < program
  mov r0, 0
  exit
  $ zscli verify - --block 512 --emit 0 < program
  accepted 2
  $ head -c 512 /dev/zero > block
  $ zscli trace program - < block
  0
  1
  exit 0 2 -
  $ cat block | zscli trace - block < program
  0
  1
  exit 0 2 -
  $ head -c 512 /dev/zero | zscli unpack - --block 512
  $ zscli entry append --lba 0 --data - < block | zscli exec image -
  cpl 1 00000000000000000000010001000000
  $ zscli entry load --slot 0 --program - --emit 0 < program | zscli exec image - | zscli explain -
  queue 1, command 1: done; dwords 0 and 1: 0, 0
  $ printf 'append --lba 0 --data block\n' | zscli entries - | zscli exec image -
  cpl 1 01000000000000000000010001000000

Standard input is read once.

  $ zscli trace - - < program
  -: standard input was read already
  cannot read -
  [1]
  $ printf 'append --lba 0 --data -\nappend --lba 0 --data -\n' > words
  $ zscli entries words < block
  words, line 2: -: standard input was read already
  cannot read -
  line 2 refused
  [1]

Errors name it by `-`.

  $ printf 'trun 0\n' | zscli exec image -
  -, line 1: "trun 0": no such event; submit, turn or fault is expected
  line 1 refused
  [3]

It is no image, and no file to add to.

  $ zscli zones - < image
  -: no such file or folder
  cannot read -
  [1]
  $ zscli entry append --lba 0 --data block --into - < block
  error: --into adds to a file, and '-' is standard input
  
  Usage: zscli <COMMAND>
  
  For more information, try '--help'.
  [2]

A file of that name is read by another one.

  $ cp block ./-
  $ zscli unpack ./- --block 512
