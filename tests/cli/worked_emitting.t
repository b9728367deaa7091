What runs emit, and in which order the turns go that are left. Data is shown with bytes that repeat counted.

  $ play() {
  >   zscli entries /dev/stdin > events && zscli exec image events > replies
  >   awk '{
  >     line = $1 (NF > 1 ? " " $2 : "") (NF > 2 ? " " $3 : "")
  >     for (i = 1; i < length($4); i += 2 * n) {
  >       byte = substr($4, i, 2)
  >       for (n = 1; substr($4, i + 2 * n, 2) == byte; n++) ;
  >       line = line " " byte (n > 1 ? "*" n : "")
  >     }
  >     print line
  >   }' replies
  > }
  $ states() { echo $(zscli zones image | cut -d ' ' -f 2-); }
  $ assemble() { cat > text && zscli asm text "$1"; }
  $ blocks() { for first; do printf "\\$first%511s" | tr ' ' '\0'; done > data; }  # with these first bytes
  $ begin() {  # zone 0 with the blocks, and zone 1 open
  >   zscli format image --block 512 --zones 4 --size 8 --capacity 6 --open 2 --active 3
  >   printf 'append --lba 0 --data data\nopen --lba 8\n' | play > setup
  >   states
  > }

A program that emits a byte and returns 1 ends its run with the first of three blocks. What it emitted for that block is kept.

  $ assemble ending <<'END'
  > mov r1, r2
  > mov r2, 1
  > call 1
  > mov r0, 1
  > exit
  > END
  $ blocks 5 4 3
  $ begin
  implicit 3 explicit 0 empty 0 empty 0
  $ play <<'END'
  > load --slot 0 --program ending --emit 3
  > run --slot 0 --from 0 --blocks 3 --to 8
  > turn 0
  > read --lba 8 --blocks 1
  > turn 0
  > END
  cpl 1 00000000000000000000010001000000
  pending 0
  cpl 1 01000000010000000000010002000000
  cpl 1 00000000000000000000010003000000 01 00 05 00*509
  idle

Records of 4 and of 8 bytes, as the first byte of each block says.

  $ assemble growing <<'END'
  > ldxb r6, [r2+0]
  > and r6, 7
  > add r6, 1
  > mov r1, r2
  > mov r2, r6
  > call 1
  > mov r0, 0
  > exit
  > END
  $ blocks 3 7
  $ begin
  implicit 2 explicit 0 empty 0 empty 0
  $ play <<'END'
  > load --slot 0 --program growing --emit 10
  > run --slot 0 --from 0 --blocks 2 --to 8
  > turn 0
  > turn 0
  > read --lba 8 --blocks 1
  > END
  cpl 1 00000000000000000000010001000000
  pending 0
  pending 0
  cpl 1 02000000010000000000010002000000
  cpl 1 00000000000000000000010003000000 04 00 03 00*3 08 00 07 00*503

Records go into output blocks in order. One of 298 bytes and one of 210 fill a block of 512, with two bytes for the length of each; a
block in between emits nothing; the last record goes into a second block. Up to the last turn nothing is appended.

  $ assemble lengths <<'END'
  > ldxh r6, [r2+0]
  > jeq r6, 0, done
  > jgt r6, 300, done
  > mov r1, r2
  > mov r2, r6
  > call 1
  > done: mov r0, 0
  > exit
  > END
  $ for length in '\052\001' '\000\000' '\322\000' '\001\000'; do
  >   printf "$length"
  >   head -c 510 /dev/zero
  > done > data
  $ begin
  implicit 4 explicit 0 empty 0 empty 0
  $ play <<'END'
  > load --slot 0 --program lengths --emit 512
  > run --slot 0 --from 0 --blocks 4 --to 8
  > turn 0
  > turn 0
  > turn 0
  > report --lba 8 --dwords 32 --partial
  > turn 0
  > read --lba 8 --blocks 2
  > END
  cpl 1 00000000000000000000010001000000
  pending 0
  pending 0
  pending 0
  pending 0
  cpl 1 00000000000000000000010003000000 01 00*63 02 30 00*6 06 00*7 08 00*7 08 00*39
  cpl 1 03000000020000000000010002000000
  cpl 1 00000000000000000000010004000000 2a 01 2a 01 00*296 d2 00 d2 00*209 01 00 01 00*509
  $ states
  implicit 4 explicit 2 empty 0 empty 0
  $ tail -n 1 replies | cut -d ' ' -f 4 | xxd -r -p > emitted
  $ zscli unpack emitted --block 512 | awk '{ print length($1) / 2 }'
  298
  210
  1

What a program is given: it emits its context. The run is over 2 blocks from block 1 on, by slot 5 and with argument abcdh. A record
has the LBA, the index in the run, the number of blocks, the size of a block, and the argument.

  $ assemble context <<'END'
  > mov r2, 32
  > call 1
  > mov r0, 0
  > exit
  > END
  $ blocks 1 2 3
  $ begin
  implicit 3 explicit 0 empty 0 empty 0
  $ play <<'END'
  > load --slot 5 --program context --emit 34
  > run --slot 5 --from 1 --blocks 2 --to 8 --argument 0xabcd
  > turn 0
  > turn 0
  > read --lba 8 --blocks 1
  > END
  cpl 1 00000000000000000000010001000000
  pending 0
  pending 0
  cpl 1 02000000010000000000010002000000
  cpl 1 00000000000000000000010003000000 20 00 01 00*11 02 00*4 02 00*2 cd ab 00*10 20 00 02 00*7 01 00*3 02 00*4 02 00*2 cd ab 00*454
  $ awk 'NF > 3 { print $4 }' replies | xxd -r -p > emitted
  $ zscli unpack emitted --block 512 | sed 's/......../ &/g'
   01000000 00000000 00000000 02000000 00020000 cdab0000 00000000 00000000
   02000000 00000000 01000000 02000000 00020000 cdab0000 00000000 00000000

Turns after the last event go to the lowest run until it has ended, then to the next.

  $ blocks 0 0 0 0 0 0 0 0
  $ zscli format image --block 512 --zones 8 --size 8 --capacity 8 --open 6 --active 6
  $ printf 'append --lba 0 --data data\nopen --lba 8\nopen --lba 16\n' | play > setup
  $ assemble returning <<'END'
  > mov r0, 0
  > exit
  > END
  $ play <<'END'
  > load --slot 0 --program returning --emit 0
  > run --slot 0 --from 0 --blocks 3 --to 8 --cid 7
  > run --slot 0 --from 0 --blocks 1 --to 16 --cid 8
  > END
  cpl 1 00000000000000000000010001000000
  pending 0
  pending 1
  pending 0
  pending 0
  cpl 1 00000000000000000000010007000000
  cpl 1 00000000000000000000010008000000

Eight runs of eight programs, each of which emits the first 8 bytes of two blocks.

  $ assemble emitting <<'END'
  > mov r1, r2
  > mov r2, 8
  > call 1
  > mov r0, 0
  > exit
  > END
  $ blocks 7 7
  $ zscli format image --block 512 --zones 12 --size 8 --capacity 8 --open 10 --active 10
  $ {
  >   echo 'append --lba 0 --data data'
  >   for n in 1 2 3 4 5 6 7 8; do echo "open --lba $((8 * n))"; done
  >   for n in 0 1 2 3 4 5 6 7; do echo "load --slot $n --program emitting --emit 10"; done
  >   for n in 0 1 2 3 4 5 6 7; do echo "run --slot $n --from 0 --blocks 2 --to $((8 * n + 8)) --cid $((n + 2))"; done
  > } | play | tail -n 24
  pending 0
  pending 1
  pending 2
  pending 3
  pending 4
  pending 5
  pending 6
  pending 7
  pending 0
  cpl 1 02000000010000000000010002000000
  pending 1
  cpl 1 02000000010000000000010003000000
  pending 2
  cpl 1 02000000010000000000010004000000
  pending 3
  cpl 1 02000000010000000000010005000000
  pending 4
  cpl 1 02000000010000000000010006000000
  pending 5
  cpl 1 02000000010000000000010007000000
  pending 6
  cpl 1 02000000010000000000010008000000
  pending 7
  cpl 1 02000000010000000000010009000000
  $ states
  implicit 2 explicit 1 explicit 1 explicit 1 explicit 1 explicit 1 explicit 1 explicit 1 explicit 1 empty 0 empty 0 empty 0

Turns of all numbers that no run has are idle, and leave the image as it is; a run that goes on is another's.

  $ blocks 7 7
  $ begin
  implicit 2 explicit 0 empty 0 empty 0
  $ {
  >   echo 'load --slot 0 --program emitting --emit 10'
  >   echo 'run --slot 0 --from 0 --blocks 2 --to 8'
  >   echo 'turn 0'
  >   for n in $(seq 255); do echo "turn $n"; done
  > } | play | uniq -c
        1 cpl 1 00000000000000000000010001000000
        2 pending 0
      255 idle
        1 cpl 1 02000000010000000000010002000000
