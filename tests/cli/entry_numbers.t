The least and the largest numbers of each kind of entry that `zscli entry` makes, and its other words: each stands in dwords of its
own. `dwords` shows the queue, and those of the entry's 16 dwords that are not 0. Dword 0 has the command identifier and the opcode.

  $ dwords() {
  >   awk 'length($3) == 128 {
  >     line = $1 " " $2 ":"
  >     for (n = 0; n < 16; n++) {
  >       d = substr($3, 8 * n + 1, 8)
  >       d = substr(d, 7, 2) substr(d, 5, 2) substr(d, 3, 2) substr(d, 1, 2)
  >       if (d != "00000000") line = line " " n "=" d
  >     }
  >     print line
  >   }'
  > }
  $ printf %512s a > block
  $ head -c 131072 /dev/zero > most
  $ head -c 8 /dev/zero > program

Addresses have 64 bits.

  $ lba=0xfedcba9876543210
  $ zscli entry append --lba $lba --data block --queue 0 --cid 0 | dwords
  submit 0: 0=0000007d 1=00000001 10=76543210 11=fedcba98
  $ zscli entry append --lba $lba --data most | dwords
  submit 1: 0=0001007d 1=00000001 10=76543210 11=fedcba98 12=000000ff
  $ zscli entry write --lba $lba --data block --cid 65535 | dwords
  submit 1: 0=ffff0001 1=00000001 10=76543210 11=fedcba98
  $ zscli entry write --lba 18446744073709551615 --data most | dwords
  submit 1: 0=00010001 1=00000001 10=ffffffff 11=ffffffff 12=000000ff
  $ zscli entry read --lba $lba --blocks 1 | dwords
  submit 1: 0=00010002 1=00000001 10=76543210 11=fedcba98
  $ zscli entry read --lba 0 --blocks 65536 --queue 65535 --cid 0x7fff | dwords
  submit 65535: 0=7fff0002 1=00000001 12=0000ffff
  $ for action in open close finish reset offline; do
  >   zscli entry $action --lba $lba | dwords
  >   zscli entry $action --all | dwords
  > done
  submit 1: 0=00010079 1=00000001 10=76543210 11=fedcba98 13=00000003
  submit 1: 0=00010079 1=00000001 13=00000103
  submit 1: 0=00010079 1=00000001 10=76543210 11=fedcba98 13=00000001
  submit 1: 0=00010079 1=00000001 13=00000101
  submit 1: 0=00010079 1=00000001 10=76543210 11=fedcba98 13=00000002
  submit 1: 0=00010079 1=00000001 13=00000102
  submit 1: 0=00010079 1=00000001 10=76543210 11=fedcba98 13=00000004
  submit 1: 0=00010079 1=00000001 13=00000104
  submit 1: 0=00010079 1=00000001 10=76543210 11=fedcba98 13=00000005
  submit 1: 0=00010079 1=00000001 13=00000105
  $ zscli entry report --lba $lba --dwords 1 | dwords
  submit 1: 0=0001007a 1=00000001 10=76543210 11=fedcba98
  $ zscli entry report --lba 0 --dwords 32768 --partial | dwords
  submit 1: 0=0001007a 1=00000001 12=00007fff 13=00010000

The slots of programs, the most bytes that may be emitted, and a run's argument, which has 32 bits.

  $ zscli entry load --slot 0 --program program --emit 0 | dwords
  submit 1: 0=000100c1 1=00000001 12=00000008
  $ zscli entry load --slot 7 --program most --emit 4294967295 | dwords
  submit 1: 0=000100c1 1=00000001 10=00000007 11=ffffffff 12=00020000
  $ zscli entry run --slot 0 --from 0 --blocks 1 --to 0 | dwords
  submit 1: 0=000100c0 1=00000001
  $ zscli entry run --slot 7 --from $lba --blocks 65536 --to 0x123456789abcdef0 --argument 4294967295 | dwords
  submit 1: 0=000100c0 1=00000001 10=76543210 11=fedcba98 12=0007ffff 13=ffffffff 14=9abcdef0 15=12345678
  $ zscli entry result --slot 0 | dwords
  submit 1: 0=000100c2 1=00000001
  $ zscli entry result --slot 7 --queue 0 --cid 0 | dwords
  submit 0: 0=000000c2 1=00000001 10=00000007
  $ zscli entry run --slot 0 --from 0 --blocks 1 --to 0 --argument 4294967296
  --argument: '4294967296' is not a number from 0 to 4294967295
  [2]
  $ zscli entry load --slot 0 --program program --emit 4294967296
  --emit: '4294967296' is not a number from 0 to 4294967295
  [2]
