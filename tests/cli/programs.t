Programs and output blocks in files: what `disasm`, `asm` and `unpack` read and write.

With `--slots` each instruction has its slot before it. A wide one takes slots 0 and 1.

  $ printf 'lddw r0, 7\nja +0\nexit\n' > text
  $ zscli asm text made
  $ zscli disasm made --slots
     0  lddw r0, 0x0000000000000007
     2  ja +0
     3  exit
  $ zscli disasm made
  lddw r0, 0x0000000000000007
  ja +0
  exit

A file that isn't there.

  $ zscli disasm none
  none: no such file or folder
  cannot read none
  [1]

`asm` replaces a program that is there. Where the text is refused, it leaves it as it was.

  $ echo exit > text
  $ zscli asm text made
  $ xxd -p made
  9500000000000000
  $ printf 'jeq r1, 0, nowhere\nmov r11, 1\n' > text
  $ zscli asm text made
  text, line 2: "mov r11, 1": the mnemonic takes other operands
  assembly refused 2 2
  [3]
  $ xxd -p made
  9500000000000000

Where it can't write the program, it says so: here no file may have a byte.

  $ echo exit > text
  $ (trap '' XFSZ; ulimit -f 0; zscli asm text unwritten 2>&1; echo "status $?") | cat
  unwritten: too large for the file system, or for a limit of the user
  cannot write unwritten
  status 1
  $ ls unwritten
  ls: cannot access 'unwritten': No such file or directory
  [2]

`verify` looks at the program before the sizes: a file of no bytes is refused before a block size and a limit that are wrong.

  $ : > empty
  $ zscli verify empty --block 513 --emit 514
  empty, 0 bytes: there is no instruction
  program refused 0 21
  [3]

`unpack` prints the records of output blocks in hexadecimal, each on a line.

  $ zeros() { head -c "$1" /dev/zero; }
  $ { printf '\3\0abc'; zeros 507; } > blocks
  $ zscli unpack blocks --block 512
  616263
  $ { printf '\1\0d\2\0ef'; zeros 505; } >> blocks
  $ zscli unpack blocks --block 512
  616263
  64
  6566

With `--json` it prints one object.

  $ zscli unpack blocks --block 512 --json
  {"records":[{"length":3,"bytes":"616263"},{"length":1,"bytes":"64"},{"length":2,"bytes":"6566"}]}

A file of no bytes has no records.

  $ zscli unpack empty --block 512
  $ zscli unpack empty --block 512 --json
  {"records":[]}

Where a block is refused, the records of the blocks before it aren't printed either.

  $ printf a > short
  $ zscli unpack short --block 512 --json
  short, byte 0: 1 of the 512 bytes of a block; whole blocks are expected
  frame refused 0
  [3]
  $ cat blocks short > cut
  $ zscli unpack cut --block 512
  cut, byte 1024: 1 of the 512 bytes of a block; whole blocks are expected
  frame refused 1024
  [3]
  $ zscli unpack cut --block 512 --json
  cut, byte 1024: 1 of the 512 bytes of a block; whole blocks are expected
  frame refused 1024
  [3]
