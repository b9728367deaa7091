The numbers and the words of help are those that commands give.

A number is refused with the range that help names.

  $ zscli entry read --lba 0 --blocks 0
  --blocks: '0' is not a number from 1 to 65536
  [2]
  $ zscli entry read --help | grep -e '--blocks <N>  '
        --blocks <N>       The number of blocks, from 1 to 65536
  $ zscli entry run --help | grep -e '--blocks <N>  '
        --blocks <N>       The number of these blocks, from 1 to 65536
  $ zscli entry report --lba 0 --dwords 0
  --dwords: '0' is not a number from 1 to 32768
  [2]
  $ zscli entry report --help | grep -e '--dwords <D>  '
        --dwords <D>       The dwords of the report, from 1 to 32768: 16 for its
  $ zscli entry result --slot 8
  --slot: '8' is not a number from 0 to 7
  [2]
  $ zscli entry load --help | grep -e '--slot <S>  '
        --slot <S>         The slot of the program, from 0 to 7
  $ zscli entry result --slot 0 --cid 65536
  --cid: '65536' is not a number from 0 to 65535
  [2]
  $ zscli entry result --slot 0 --queue 65536
  --queue: '65536' is not a number from 0 to 65535
  [2]
  $ zscli entry result --help | grep -e '--queue <Q>  ' -e '--cid <C>  '
        --queue <Q>        The submission queue, from 0 to 65535 [default: 1]
        --cid <C>          The command identifier, from 0 to 65535, which the

A file is refused with the size that help names.

  $ for it in $(seq 16385); do printf '\225\0\0\0\0\0\0\0'; done > long
  $ zscli entry load --slot 0 --program long --emit 0
  long: 131080 bytes; a command moves at most 131072
  data refused 2
  [3]
  $ zscli entry --help | grep -o 'has at most 131072 bytes'
  has at most 131072 bytes
  $ zscli entry append --help | grep -e '--data <FILE>  '
        --data <FILE>      The file: whole blocks, at most 131072 bytes
  $ zscli entry write --help | grep -e '--data <FILE>  '
        --data <FILE>      The file: whole blocks, at most 131072 bytes
  $ zscli disasm long
  long, 131080 bytes: there are more than 4096 slots
  program refused 0 22
  [3]
  $ zscli disasm --help | tr '\n' ' ' | grep -o 'from 1 to 4096 slots'
  from 1 to 4096 slots

Numbers that are no geometry are refused with the bounds that help names. No file is made.

  $ zscli format new --block 1 --zones 4 --size 8 --capacity 6 --open 2 --active 3
  a block of 1 bytes: the block size is no power of 2 from 512 to 16384
  geometry refused 1
  [3]
  $ zscli format --help | grep 'Bytes of a block'
            Bytes of a block: a power of 2 from 512 to 16384
  $ zscli trace --help | tr '\n' ' ' | grep -o "Its size is the file's length: .* 16384 bytes[.]"
  Its size is the file's length: a power of 2 from 512 to 16384 bytes.
  $ zscli format new --block 512 --zones 0 --size 8 --capacity 6 --open 2 --active 3
  0 zones: the number of zones is not from 1 to 4096
  geometry refused 2
  [3]
  $ zscli format new --block 512 --zones 4 --size 0 --capacity 6 --open 2 --active 3
  zones of 0 blocks: the zone size is not from 1 to 16777216 blocks
  geometry refused 3
  [3]
  $ zscli format new --block 4096 --zones 16 --size 8192 --capacity 8192 --open 1 --active 1
  16 zones of 8192 writable blocks of 4096 bytes: the zones' capacity is more than 268435456 bytes in all
  geometry refused 6
  [3]
  $ zscli format --help | tr '\n' ' ' | grep -o 'Of numbers that .* is written then[.]' | tr ',' '\n'
  Of numbers that are no geometry
   `geometry refused REASON` tells what is wrong first: 1 the block size
   2 the number of zones (1 to 4096)
   3 the size (1 to 16777216)
   4 the capacity (1 to the size)
   5 the limits (1 to the active limit
   and that to the number of zones)
   6 all in all more than 268435456 bytes. No file is written then.
  $ ls new
  ls: cannot access 'new': No such file or directory
  [2]

The help of `trace` lists each cause of a trap.

  $ zscli trace --help | grep '^  [1-9] '
    1 the next slot is outside the program
    2 the next slot is a wide instruction's second
    3 a write to R10
    4 a load outside
    5 a store outside, or into the context or the block
    6 a helper other than 1
    7 an emit from outside
    8 an emit of no bytes, or over the limit

A trap is explained with the same words.

  $ head -c 512 /dev/zero > block
  $ trap_of() {
  >     printf "$1" > text
  >     zscli asm text program
  >     zscli trace program block --registers | tail -n 2
  > }
  $ trap_of 'mov r0, 0'
     0  mov r0, 0: the next slot is outside the program
  trap 0 1
  $ trap_of 'ja +1\nlddw r0, 1\nexit'
     0  ja +1: the next slot is a wide instruction's second
  trap 0 2
  $ trap_of 'mov r10, 0\nexit'
     0  mov r10, 0: a write to R10
  trap 0 3
  $ trap_of 'ldxb r0, [r2+512]\nexit'
     0  ldxb r0, [r2+512]: a load outside
  trap 0 4
  $ trap_of 'stb [r2], 1\nexit'
     0  stb [r2+0], 1: a store outside, or into the context or the block
  trap 0 5
  $ trap_of 'call 2\nexit'
     0  call 2: a helper other than 1
  trap 0 6
  $ trap_of 'mov r1, 0\nmov r2, 1\ncall 1\nexit'
     2  call 1: an emit from outside
  trap 2 7
  $ trap_of 'mov r1, r2\nmov r2, 0\ncall 1\nexit'
     2  call 1: an emit of no bytes, or over the limit
  trap 2 8

The help of `verify` lists each reason of a refusal.

  $ zscli verify --help | grep -E '^ +[0-9]+ an? '
     1 a jump backward
     2 a jump to no instruction
     3 a program that falls off
     4 a write to R10
     5 a load outside
     6 a store outside, or into the context or the block
     7 a helper other than 1
     8 an emit from an unknown address
     9 an emit of an unknown length
    10 an emit over the limit

A refusal is explained with the same words.

  $ refusal_of() {
  >     printf "$1" > text
  >     zscli asm text program
  >     zscli verify program --block 512 --emit 8 --explain | sed -n '1p;3p'
  > }
  $ refusal_of 'ja -1\nexit'
  refused 0 1
  a jump backward: to slot 0
  $ refusal_of 'ja +3\nexit'
  refused 0 2
  a jump to no instruction: to slot 4, of 2 slots
  $ refusal_of 'mov r0, 0'
  refused 0 3
  a program that falls off: no instruction stands behind it
  $ refusal_of 'mov r10, 0\nexit'
  refused 0 4
  a write to R10: a program can only read it
  $ refusal_of 'ldxb r0, [r2+512]\nexit'
  refused 0 5
  a load outside: for 1 byte r2 must be block - 512 to block - 1
  $ refusal_of 'stb [r2], 1\nexit'
  refused 0 6
  a store outside, or into the context or the block: r2 leads to what a program can only read
  $ refusal_of 'call 2\nexit'
  refused 0 7
  a helper other than 1: it calls 2
  $ refusal_of 'mov r1, 0\nmov r2, 1\ncall 1\nexit'
  refused 2 8
  an emit from an unknown address: r1 is not known to be an address
  $ refusal_of 'mov r1, r2\nldxb r2, [r1]\ncall 1\nexit'
  refused 2 9
  an emit of an unknown length: r2 must be 1 to 512
  $ refusal_of 'mov r1, r2\nmov r2, 8\ncall 1\nexit'
  refused 2 10
  an emit over the limit: behind 0 bytes, 2 for its length and 8 bytes come to 10, and 8 may be emitted

Help is printed to standard output, and a usage that is wrong to standard error.

  $ zscli --help 2> /dev/null | sed -n 1,3p
  Works on zoned namespaces, and on the programs that run beside their data
  
  Usage: zscli <COMMAND>
  $ zscli 2> /dev/null
  [2]

No line of a help has more than 80 columns, and no word is lost.

  $ for it in demo format zones report upgrade exec serve fold explain entry entries asm disasm link verify trace unpack; do
  >   zscli $it --help
  > done | awk 'length > 80'
  $ zscli --help | awk 'length > 80'
  $ for it in append write read open close finish reset offline report load run result; do zscli entry $it --help; done | awk 'length > 80'
  $ zscli report --help | sed -n '/--color/,/-h/p'
        --color <WHEN>
            When a map has colors; auto: on a terminal, unless NO_COLOR is set
            
            [default: auto]
            [possible values: auto, always, never]
  
    -h, --help
