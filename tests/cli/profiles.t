Profile 3 knows more of addresses and sums than profile 2, by which `verify` and a Load judge where nothing else is said. Blocks have 512
bytes.

  $ verify() { zscli verify program --block 512 "$@"; }
  $ text() { cat > text; zscli asm text program; }

R3 is an address up to 255 bytes into the block, and is compared with the one 200 bytes into it. Profile 2 compares no addresses.

  $ text <<'END'
  > ldxb r6, [r2+0]
  > mov r3, r2
  > add r3, r6
  > add r2, 200
  > jge r3, r2, +1
  > ldxb r0, [r3+312]
  > mov r0, 0
  > exit
  > END
  $ verify --emit 0 --explain
  refused 5 5
     5  ldxb r0, [r3+312]
  a load outside: for 1 byte r3 must be block - 312 to block + 199
  r3 is block + 0 to 255
  [3]
  $ verify --emit 0 --explain --profile 2
  refused 5 5
     5  ldxb r0, [r3+312]
  a load outside: for 1 byte r3 must be block - 312 to block + 199
  r3 is block + 0 to 255
  [3]

By profile 3 R3 is at most 199 bytes into the block after the compare. 199 + 312 is the block's last byte.

  $ verify --emit 0 --profile 3
  accepted 8
  $ verify --emit 0 --profile 3 --explain --facts
  accepted 8
  for a block at most 8 steps, and 0 bytes emitted
     0  ldxb r6, [r2+0]  r2 is block + 0
     1  mov r3, r2  r2 is block + 0
     2  add r3, r6  r3 is block + 0, r6 is 0 to 255
     3  add r2, 200  r2 is block + 0
     4  jge r3, r2, +1  r3 is block + 0 to 255, r2 is block + 200
     5  ldxb r0, [r3+312]  r3 is block + 0 to 199
     6  mov r0, 0
     7  exit

One byte further on it is refused by both.

  $ sed s/312/313/ text > further
  $ zscli asm further program
  $ verify --emit 0
  refused 5 5
  [3]
  $ verify --emit 0 --profile 3 --explain
  refused 5 5
     5  ldxb r0, [r3+313]
  a load outside: for 1 byte r3 must be block - 313 to block + 198
  r3 is block + 0 to 199
  [3]

The first two bytes of a block give a record's offset and length. The record is emitted where their sum is at most 512. It has 1 to 256
bytes, and 2 more for its length.

  $ text <<'END'
  > ldxb r6, [r2+0]
  > ldxb r7, [r2+1]
  > lsh r6, 1
  > add r7, 1
  > mov r3, r6
  > add r3, r7
  > jgt r3, 512, +4
  > add r2, r6
  > mov r1, r2
  > mov r2, r7
  > call 1
  > mov r0, 0
  > exit
  > END
  $ cp program record
  $ verify --emit 258
  refused 10 9
  [3]
  $ verify --emit 258 --profile 3 --json
  {"accepted":true,"instruction_count":13,"most_emitted":258}
  $ verify --emit 257 --profile 3 --json
  {"accepted":false,"instruction_count":13,"slot":10,"reason":10,"words":"an emit over the limit","instruction":"call 1","emitted":0,"record":256,"limit":257,"registers":[{"register":1,"area":"block","low":0,"high":510},{"register":2,"low":1,"high":256}]}
  [3]

The difference of two addresses is a number by profile 3, and where addresses in two areas meet, the register is a number from the lower to
the higher. So this load is refused by both.

  $ text <<'END'
  > ldxb r6, [r2+0]
  > mov r4, r2
  > add r4, r6
  > sub r4, r2
  > mov r7, r2
  > jeq r4, 0, +1
  > mov r7, r3
  > ldxb r0, [r7+0]
  > exit
  > END
  $ verify --emit 0
  refused 7 5
  [3]
  $ verify --emit 0 --profile 3 --facts
  refused 7 5
     0  ldxb r6, [r2+0]  r2 is block + 0
     1  mov r4, r2  r2 is block + 0
     2  add r4, r6  r4 is block + 0, r6 is 0 to 255
     3  sub r4, r2  r4 is block + 0 to 255, r2 is block + 0
     4  mov r7, r2  r2 is block + 0
     5  jeq r4, 0, +1  r4 is 0 to 255
     6  mov r7, r3  r3 is scratch + 0
     7> ldxb r0, [r7+0]  r7 is 8589934592 to 17179869184
        forgotten in r7: block + 0 from slot 5, scratch + 0 from slot 6
  [3]

A block whose record begins at byte 4 and has 3 bytes, an open zone for the output, and a Load and a Run of the program above.

  $ zscli format image --block 512 --zones 4 --size 8 --capacity 6 --open 2 --active 3
  $ { printf '\2\2..abc'; head -c 505 /dev/zero; } > block
  $ cat > words <<'END'
  > append --lba 0 --data block --cid 1
  > open --lba 8 --cid 2
  > load --slot 0 --program record --emit 258 --cid 3
  > run --slot 0 --from 0 --blocks 1 --to 8 --cid 4
  > END
  $ zscli entries words > events

By default `exec` judges by profile 2: the Load is refused, with the slot and the reason, and then there is no program to run. Each time the
block is appended.

  $ zscli exec image events
  cpl 1 00000000000000000000010001000000
  cpl 1 00000000000000000000010002000000
  cpl 1 0a00000009000000000001000300840f
  cpl 1 0000000000000000000001000400820f
  $ zscli exec image events --profile 2 | tee replies
  cpl 1 01000000000000000000010001000000
  cpl 1 00000000000000000000010002000000
  cpl 1 0a00000009000000000001000300840f
  cpl 1 0000000000000000000001000400820f
  $ zscli explain replies --commands events
  queue 1, command 1: append of 1 block to the zone of LBA 0: the first is at LBA 1
  queue 1, command 2: open of the zone of LBA 8: done
  queue 1, command 3: load of 104 bytes into slot 0: refused: Program Refused (type 7h, code C2h; profile): the bytes are no program, or it is not accepted; slot 10, reason 9 (an emit of an unknown length)
  queue 1, command 4: run of slot 0 over 1 block from LBA 0 on, to the zone of LBA 8: refused: No Such Program (type 7h, code C1h; profile): the slot has no program

By profile 3 it is loaded and runs.

  $ zscli exec image events --profile 3
  cpl 1 02000000000000000000010001000000
  cpl 1 00000000000000000000010002000000
  cpl 1 00000000000000000000010003000000
  pending 0
  cpl 1 01000000010000000000010004000000
  $ zscli zones image
  0 implicit 3
  1 explicit 1
  2 empty 0
  3 empty 0

The output block has the record after its length.

  $ zscli entry read --lba 8 --blocks 1 --cid 1 > events
  $ zscli exec image events | cut -d ' ' -f 4 | xxd -r -p > output
  $ od -A d -t x1 output
  0000000 03 00 61 62 63 00 00 00 00 00 00 00 00 00 00 00
  0000016 00 00 00 00 00 00 00 00 00 00 00 00 00 00 00 00
  *
  0000512
  $ zscli unpack output --block 512
  616263

There are no other profiles. The number is refused before any file is read.

  $ zscli verify gone --block 512 --emit 0 --profile 1
  --profile: '1' is not a number from 2 to 3
  [2]
  $ zscli verify gone --block 512 --emit 0 --profile 4
  --profile: '4' is not a number from 2 to 3
  [2]
  $ zscli verify gone --block 512 --emit 0 --profile 0x3
  --profile: '0x3' is not a number from 2 to 3
  [2]
  $ zscli exec gone events --profile 1
  --profile: '1' is not a number from 2 to 3
  [2]
