No command reads a file without end. Of each kind of file a limit is known, above all that can be of use.

  $ zscli disasm /dev/zero
  /dev/zero: larger than 16 MiB, the most that is read of it
  cannot read /dev/zero
  [1]
  $ zscli verify /dev/zero --block 512 --emit 0
  /dev/zero: larger than 16 MiB, the most that is read of it
  cannot read /dev/zero
  [1]
  $ printf '\225\0\0\0\0\0\0\0' > program
  $ zscli trace program /dev/zero
  /dev/zero: larger than 1 MiB, the most that is read of it
  cannot read /dev/zero
  [1]
  $ zscli asm /dev/zero made
  /dev/zero: larger than 64 MiB, the most that is read of it
  cannot read /dev/zero
  [1]
  $ zscli unpack /dev/zero --block 512
  /dev/zero: larger than 256 MiB, the most that is read of it
  cannot read /dev/zero
  [1]
  $ zscli link /dev/zero --block 512 -o made
  /dev/zero: larger than 64 MiB, the most that is read of it
  cannot read /dev/zero
  [1]
  $ zscli entries /dev/zero
  /dev/zero: larger than 64 MiB, the most that is read of it
  cannot read /dev/zero
  [1]
  $ zscli entry append --lba 0 --data /dev/zero
  /dev/zero: larger than 256 MiB, the most that is read of it
  cannot read /dev/zero
  [1]
  $ ls
  program

A program over 4096 slots is refused as that, up to this limit.

  $ head -c 16777216 /dev/zero > large
  $ zscli disasm large
  large, 16777216 bytes: there are more than 4096 slots
  program refused 0 22
  [3]
  $ printf 0 >> large
  $ zscli disasm large
  large: larger than 16 MiB, the most that is read of it
  cannot read large
  [1]
