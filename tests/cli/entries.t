`zscli entry` prints a line of a command file, made of words: a queue, an entry of 64 bytes as 128 hexadecimal digits, and
the data beside it.

  $ zscli entry read --lba 8589934600 --blocks 3 --cid 9
  submit 1 02000900010000000000000000000000000000000000000000000000000000000000000000000000080000000200000002000000000000000000000000000000

From here on `dwords` shows the queue, those of the entry's 16 dwords that are not 0, and the data. Dword 0 has the command
identifier and the opcode, dword 1 is the namespace.

  $ dwords() {
  >   awk 'length($3) == 128 {
  >     line = $1 " " $2 ":"
  >     for (n = 0; n < 16; n++) {
  >       d = substr($3, 8 * n + 1, 8)
  >       d = substr(d, 7, 2) substr(d, 5, 2) substr(d, 3, 2) substr(d, 1, 2)
  >       if (d != "00000000") line = line " " n "=" d
  >     }
  >     print line (NF > 3 ? ", data " $4 : "")
  >   }'
  > }

A read. Its address is in dwords 10 and 11, and its number of blocks, less one, in dword 12.

  $ zscli entry read --lba 8589934600 --blocks 3 --cid 9 | dwords
  submit 1: 0=00090002 1=00000001 10=00000008 11=00000002 12=00000002

Actions on one zone, or with Select All on all. The queue and the address may be in decimal, or in hexadecimal after `0x`.

  $ zscli entry open --lba 8 --queue 65535 | dwords
  submit 65535: 0=00010079 1=00000001 10=00000008 13=00000003
  $ zscli entry open --lba 0x4F --queue 0xffff | dwords
  submit 65535: 0=00010079 1=00000001 10=0000004f 13=00000003
  $ zscli entry close --lba 8 | dwords
  submit 1: 0=00010079 1=00000001 10=00000008 13=00000001
  $ zscli entry finish --lba 8 | dwords
  submit 1: 0=00010079 1=00000001 10=00000008 13=00000002
  $ zscli entry reset --all | dwords
  submit 1: 0=00010079 1=00000001 13=00000104
  $ zscli entry offline --lba 8 | dwords
  submit 1: 0=00010079 1=00000001 10=00000008 13=00000005

Reports. Dword 12 is the number of dwords, less one; dword 13 has the filter in byte 1 and Partial in byte 2.

  $ zscli entry report --lba 9 | dwords
  submit 1: 0=0001007a 1=00000001 10=00000009 12=000003ff
  $ zscli entry report --lba 0 --state readonly --partial --dwords 40 | dwords
  submit 1: 0=0001007a 1=00000001 12=00000027 13=00010600

Each word for a state has the code of its filter.

  $ for state in all empty implicit explicit closed full readonly offline; do
  >   echo "$state $(zscli entry report --lba 0 --state $state | dwords)"
  > done
  all submit 1: 0=0001007a 1=00000001 12=000003ff
  empty submit 1: 0=0001007a 1=00000001 12=000003ff 13=00000100
  implicit submit 1: 0=0001007a 1=00000001 12=000003ff 13=00000200
  explicit submit 1: 0=0001007a 1=00000001 12=000003ff 13=00000300
  closed submit 1: 0=0001007a 1=00000001 12=000003ff 13=00000400
  full submit 1: 0=0001007a 1=00000001 12=000003ff 13=00000500
  readonly submit 1: 0=0001007a 1=00000001 12=000003ff 13=00000600
  offline submit 1: 0=0001007a 1=00000001 12=000003ff 13=00000700

The commands for programs: a load with the program beside it, a run, and a result.

  $ printf 'mov r0, 0\nexit\n' > text
  $ zscli asm text exit
  $ zscli entry load --slot 7 --program exit --emit 66 | dwords
  submit 1: 0=000100c1 1=00000001 10=00000007 11=00000042 12=00000010, data b7000000000000009500000000000000
  $ zscli entry run --slot 1 --from 8 --blocks 52 --to 64 --argument 7 | dwords
  submit 1: 0=000100c0 1=00000001 10=00000008 12=00010033 13=00000007 14=00000040
  $ zscli entry result --slot 3 --cid 65535 | dwords
  submit 1: 0=ffff00c2 1=00000001 10=00000003

An append and a write have the blocks of a file beside them, here of 512 bytes and of 1024.

  $ printf %512s a > block
  $ printf %1024s b > blocks
  $ zscli entry append --lba 8 --data blocks | dwords | cut -d , -f 1
  submit 1: 0=0001007d 1=00000001 10=00000008 12=00000001
  $ zscli entry write --lba 8 --data blocks --block 1024 | dwords | cut -d , -f 1
  submit 1: 0=00010001 1=00000001 10=00000008
  $ zscli entry append --lba 8 --data blocks | cut -d ' ' -f 4 | xxd -r -p | cmp - blocks

Lines that are printed one after another are a command file.

  $ zscli format image --block 512 --zones 4 --size 8 --capacity 6 --open 2 --active 3
  $ tr ' ' a < block > letters
  $ zscli entry append --lba 8 --data letters > events
  $ zscli entry write --lba 9 --data letters --block 512 --cid 2 >> events
  $ zscli entry open --lba 16 --queue 2 --cid 3 >> events
  $ zscli entry load --slot 0 --program exit --emit 0 --cid 4 >> events
  $ zscli entry run --slot 0 --from 8 --blocks 2 --to 16 --cid 5 >> events
  $ zscli exec image events
  cpl 1 08000000000000000000010001000000
  cpl 1 00000000000000000000010002000000
  cpl 2 00000000000000000000020003000000
  cpl 1 00000000000000000000010004000000
  pending 0
  pending 0
  cpl 1 00000000000000000000010005000000
  $ zscli zones image
  0 empty 0
  1 implicit 2
  2 explicit 0
  3 empty 0

The image has the two blocks after its header and a record of 8 bytes for each zone.

  $ head -c 96 image | xxd -p -c 8
  5a4e53494d473032
  0002000004000000
  0800000006000000
  0200000003000000
  0200000000000000
  0000000000000000
  0000000000000000
  0000000000000000
  0100000000000000
  0200000002000000
  0300000000000000
  0100000000000000
  $ cat letters letters > both
  $ tail -c +97 image | cmp - both

Files with data that are refused: no bytes, no whole blocks, more than a command moves. Standard output has nothing.

  $ printf '' > none
  $ head -c 511 letters > short
  $ head -c 131072 /dev/zero > most
  $ head -c 131584 /dev/zero > long
  $ zscli entry append --lba 8 --data none > out
  none: 0 bytes; from 1 to 131072 are expected
  data refused 1
  [3]
  $ zscli entry write --lba 8 --data short >> out
  short: 511 bytes; whole blocks of 512 are expected
  data refused 3
  [3]
  $ zscli entry append --lba 8 --data long >> out
  long: 131584 bytes; a command moves at most 131072
  data refused 2
  [3]
  $ zscli entry load --slot 0 --program long --emit 0 >> out
  long: 131584 bytes; a command moves at most 131072
  data refused 2
  [3]

So are a size that no block has, and a file that isn't there.

  $ zscli entry append --lba 8 --data most --block 513 >> out
  a block of 513 bytes: the block size is no power of 2 from 512 to 16384
  geometry refused 1
  [3]
  $ zscli entry append --lba 8 --data gone >> out
  gone: no such file or folder
  cannot read gone
  [1]
  $ cat out

The most that a command moves goes out as one line, where standard output takes it. `/dev/full` takes nothing.

  $ zscli entry append --lba 8 --data most --block 4096 | dwords | cut -d , -f 1
  submit 1: 0=0001007d 1=00000001 10=00000008 12=0000001f
  $ zscli entry append --lba 8 --data most > /dev/full
  -: no room is left
  cannot write -
  [1]
