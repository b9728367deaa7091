Runs of programs, turn by turn. The first scenes have an image of 4 zones of 8 blocks of 512 bytes, 6 of them writable, of which 2 may
be open and 3 active; the others one of 2 zones of 64 blocks.

  $ small() {
  >   zscli format image --block 512 --zones 4 --size 8 --capacity 6 --open 2 --active 3
  > }
  $ long() {
  >   zscli format image --block 512 --zones 2 --size 64 --capacity 64 --open 2 --active 2
  > }
  $ happen() {  # prints the replies, where data that repeats is counted, and so are lines that do
  >   zscli exec image events > replies
  >   awk '{
  >     line = $1 (NF > 1 ? " " $2 : "") (NF > 2 ? " " $3 : "")
  >     for (i = 1; i < length($4); i += 2 * n) {
  >       byte = substr($4, i, 2)
  >       for (n = 1; substr($4, i + 2 * n, 2) == byte; n++) ;
  >       line = line " " byte (n > 1 ? "*" n : "")
  >     }
  >     print line
  >   }' replies | uniq -c | sed 's/^ *1 //'
  > }
  $ play() { zscli entries /dev/stdin > events && happen; }
  $ said() { zscli explain replies --commands events; }
  $ blocks() { for first; do printf "\\$first%511s" | tr ' ' '\0'; done; }  # with these first bytes, in octal

A program of two instructions, which emits nothing, runs over three blocks, one each turn. The third turn completes the run, with
identifier 7; there is no run then, nor is there one of a number that no run has.

  $ echo b7000000000000009500000000000000 | xxd -r -p > returning
  $ zscli disasm returning
  mov r0, 0
  exit
  $ blocks 1 2 3 > data
  $ small
  $ play <<'END'
  > append --lba 0 --data data
  > open --lba 8
  > END
  cpl 1 00000000000000000000010001000000
  cpl 1 00000000000000000000010002000000
  $ cp image before
  $ play <<'END'
  > load --slot 0 --program returning --emit 0 --cid 1
  > run --slot 0 --from 0 --blocks 3 --to 8 --cid 7
  > turn 0
  > turn 0
  > turn 0
  > turn 0
  > turn 3
  > turn 255
  > END
  cpl 1 00000000000000000000010001000000
        3 pending 0
  cpl 1 00000000000000000000010007000000
        3 idle
  $ said
  queue 1, command 1: load of 16 bytes into slot 0: done
  pending 0: run 0 was admitted, or had a turn, and has turns left
  pending 0: run 0 was admitted, or had a turn, and has turns left
  pending 0: run 0 was admitted, or had a turn, and has turns left
  queue 1, command 7: run of slot 0 over 3 blocks from LBA 0 on, to the zone of LBA 8: 0 records in 0 blocks
  idle: a turn for a run that is not active
  idle: a turn for a run that is not active
  idle: a turn for a run that is not active
  $ cmp image before

Each turn takes two steps.

  $ blocks 1 > block
  $ zscli trace returning block
  0
  1
  exit 0 2 -

Without turns in the command file the run gets them after its last line.

  $ play <<'END'
  > load --slot 0 --program returning --emit 0 --cid 1
  > run --slot 0 --from 0 --blocks 3 --to 8 --cid 7
  > END
  cpl 1 00000000000000000000010001000000
        3 pending 0
  cpl 1 00000000000000000000010007000000

A program that emits the first 8 bytes of each block that begins with 7. A block that does takes 7 steps, another 4.

  $ xxd -r -p > matching <<'END'
  > 7126000000000000 5506030007000000 bf21000000000000 b702000008000000
  > 8500000001000000 b700000000000000 9500000000000000
  > END
  $ zscli disasm matching
  ldxb r6, [r2+0]
  jne r6, 7, +3
  mov r1, r2
  mov r2, 8
  call 1
  mov r0, 0
  exit
  $ blocks 7 > seven
  $ zscli trace matching seven --emit 10 | tail -n 1
  exit 0 7 08000700000000000000
  $ zscli trace matching block --emit 10 | tail -n 1
  exit 0 4 -

It runs over 52 such blocks. 51 records of 8 bytes, each with two bytes for its length, fit into a block, so that up to the 51st turn
nothing is appended: the write pointer is at block 64. The 52nd turn appends two blocks.

  $ for n in $(seq 52); do cat seven; done > sevens
  $ long
  $ play <<'END'
  > append --lba 0 --data sevens
  > open --lba 64
  > END
  cpl 1 00000000000000000000010001000000
  cpl 1 00000000000000000000010002000000
  $ cp image before
  $ {
  >   echo 'load --slot 0 --program matching --emit 10'
  >   echo 'run --slot 0 --from 0 --blocks 52 --to 64'
  >   yes 'turn 0' | head -n 51
  >   echo 'report --lba 64 --dwords 32'
  >   echo 'read --lba 64 --blocks 2'
  >   echo 'turn 0'
  > } | play
  cpl 1 00000000000000000000010001000000
       52 pending 0
  cpl 1 00000000000000000000010003000000 01 00*63 02 30 00*6 40 00*7 40 00*7 40 00*39
  cpl 1 00000000000000000000010004000000 00*1024
  cpl 1 34000000020000000000010002000000
  $ said | tail -n 1
  queue 1, command 2: run of slot 0 over 52 blocks from LBA 0 on, to the zone of LBA 64: 52 records in 2 blocks
  $ zscli zones image
  0 implicit 52
  1 explicit 2

The first block has 51 records and two bytes of zeros, the second one record and 502 bytes of zeros.

  $ zscli entry read --lba 64 --blocks 2 > events
  $ zscli exec image events | cut -d ' ' -f 4 > digits
  $ head -c 1024 digits | fold -w 20 | uniq -c
       51 08000700000000000000
        1 0000
  $ tail -c +1025 digits | fold -w 20 | uniq -c
        1 08000700000000000000
       50 00000000000000000000
        1 0000
  $ xxd -r -p digits > emitted
  $ zscli unpack emitted --block 512 | uniq -c
       52 0700000000000000

With 63 blocks in the destination there is room for one block only, and a run over 52 blocks could append two: it lacks room. One over 51
blocks does not.

  $ cp before image
  $ head -c 32256 /dev/zero > most
  $ play <<'END'
  > append --lba 64 --data most
  > load --slot 0 --program matching --emit 10
  > run --slot 0 --from 0 --blocks 52 --to 64
  > run --slot 0 --from 0 --blocks 51 --to 64
  > END
  cpl 1 40000000000000000000010001000000
  cpl 1 00000000000000000000010002000000
  cpl 1 00000000000000000000010003008c0f
       51 pending 0
  cpl 1 33000000010000000000010004000000
  $ said | sed -n 3p
  queue 1, command 3: run of slot 0 over 52 blocks from LBA 0 on, to the zone of LBA 64: refused: Destination Lacks Room (type 7h, code C6h; profile): the zone that the run is to append to has less room than the run may need
  $ zscli zones image
  0 implicit 52
  1 full 64

A run that fills its destination: zone 1 has 5 blocks of 6, and the second of two turns appends one.

  $ small
  $ blocks 1 2 3 4 5 > data
  $ head -c 1024 sevens > two
  $ play <<'END'
  > append --lba 0 --data two
  > append --lba 8 --data data
  > load --slot 0 --program matching --emit 10
  > run --slot 0 --from 0 --blocks 2 --to 8
  > turn 0
  > report --lba 8 --dwords 32
  > turn 0
  > append --lba 8 --data block
  > END
  cpl 1 00000000000000000000010001000000
  cpl 1 08000000000000000000010002000000
  cpl 1 00000000000000000000010003000000
        2 pending 0
  cpl 1 00000000000000000000010005000000 03 00*63 02 20 00*6 06 00*7 08 00*7 0d 00*39
  cpl 1 02000000010000000000010004000000
  cpl 1 00000000000000000000010006007203
  $ zscli zones image
  0 implicit 2
  1 full 6
  2 empty 0
  3 empty 0

A program that adds the first bytes of the blocks in its scratch, and ends its run with the third block, though there are ten. The result is
1 + 2 + 3 in the first byte, and 1023 zeros.

  $ xxd -r -p > adding <<'END'
  > 7124000000000000 7935000000000000 0f45000000000000 7b53000000000000 6116080000000000
  > b700000000000000 5506010002000000 b700000001000000 9500000000000000
  > END
  $ zscli disasm adding
  ldxb r4, [r2+0]
  ldxdw r5, [r3+0]
  add r5, r4
  stxdw [r3+0], r5
  ldxw r6, [r1+8]
  mov r0, 0
  jne r6, 2, +1
  mov r0, 1
  exit
  $ blocks 1 2 3 4 5 6 7 10 11 12 > data
  $ long
  $ play <<'END'
  > append --lba 0 --data data
  > open --lba 64
  > load --slot 0 --program adding --emit 0
  > run --slot 0 --from 0 --blocks 10 --to 64
  > turn 0
  > turn 0
  > result --slot 0
  > turn 0
  > result --slot 0
  > turn 0
  > END
  cpl 1 00000000000000000000010001000000
  cpl 1 00000000000000000000010002000000
  cpl 1 00000000000000000000010003000000
        3 pending 0
  cpl 1 00000000000000000000010005000000 00*1024
  cpl 1 00000000000000000000010004000000
  cpl 1 00000000000000000000010006000000 06 00*1023
  idle
