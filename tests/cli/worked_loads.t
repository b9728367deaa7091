Which programs a Load takes, what it says of one that it refuses, and the results that runs leave. The image has 4 zones of 8 blocks of
512 bytes, 6 of them writable; zone 0 has two blocks, which begin with 40 and 2, and zone 1 is open.

  $ happen() {  # prints the replies, where bytes of data that repeat are counted
  >   zscli exec image events > replies
  >   awk '{
  >     line = $1 (NF > 1 ? " " $2 : "") (NF > 2 ? " " $3 : "")
  >     for (i = 1; i < length($4); i += 2 * n) {
  >       byte = substr($4, i, 2)
  >       for (n = 1; substr($4, i + 2 * n, 2) == byte; n++) ;
  >       line = line " " byte (n > 1 ? "*" n : "")
  >     }
  >     print line
  >   }' replies
  > }
  $ play() { zscli entries /dev/stdin > events && happen; }
  $ said() { zscli explain replies --commands events; }
  $ assemble() { cat > text && zscli asm text "$1"; }
  $ zscli format image --block 512 --zones 4 --size 8 --capacity 6 --open 2 --active 3
  $ { printf '\050%511s' | tr ' ' '\0'; printf '\002%511s' | tr ' ' '\0'; } > data
  $ play <<'END'
  > append --lba 0 --data data
  > open --lba 8
  > END
  cpl 1 00000000000000000000010001000000
  cpl 1 00000000000000000000010002000000
  $ cp image before

A program that is refused: the first two dwords are the slot of the instruction and the reason. Half of a wide instruction is no program;
the jump of the second goes into a wide instruction; the third has no end.

  $ echo 1801000000000000 | xxd -r -p > wide
  $ echo 0500010000000000180100000000000000000000000000009500000000000000 | xxd -r -p > into
  $ echo b700000000000000 | xxd -r -p > endless
  $ play <<'END'
  > load --slot 0 --program wide --emit 0 --cid 8
  > load --slot 0 --program into --emit 0
  > load --slot 0 --program endless --emit 0
  > END
  cpl 1 000000001a000000000001000800840f
  cpl 1 0000000002000000000001000900840f
  cpl 1 0000000003000000000001000a00840f
  $ said
  queue 1, command 8: load of 8 bytes into slot 0: refused: Program Refused (type 7h, code C2h; profile): the bytes are no program, or it is not accepted; slot 0, reason 26 (a wide instruction lacks its second slot)
  queue 1, command 9: load of 32 bytes into slot 0: refused: Program Refused (type 7h, code C2h; profile): the bytes are no program, or it is not accepted; slot 0, reason 2 (a jump to no instruction)
  queue 1, command 10: load of 8 bytes into slot 0: refused: Program Refused (type 7h, code C2h; profile): the bytes are no program, or it is not accepted; slot 0, reason 3 (a program that falls off)

A program without bytes, and one of 4097 slots, where 4096 are the most.

  $ zeros() { printf '%0*d' $((2 * $1)) 0; }  # so many bytes, as digits
  $ echo "submit 1 c100010001000000$(zeros 56)" > events
  $ yes b700000000000000 | head -n 4097 | xxd -r -p > many
  $ zscli entry load --slot 0 --program many --emit 0 --cid 2 >> events
  $ happen
  cpl 1 0000000015000000000001000100840f
  cpl 1 0000000016000000000001000200840f
  $ said
  queue 1, command 1: load of 0 bytes into slot 0: refused: Program Refused (type 7h, code C2h; profile): the bytes are no program, or it is not accepted; slot 0, reason 21 (there is no instruction)
  queue 1, command 2: load of 32776 bytes into slot 0: refused: Program Refused (type 7h, code C2h; profile): the bytes are no program, or it is not accepted; slot 0, reason 22 (there are more than 4096 slots)

Programs that might not do for some block: a block that begins with 9 would lead to a load from 0; a loop; one byte more than may be
emitted. Nothing of all these is in the slot.

  $ assemble load <<'END'
  > ldxb r6, [r2+0]
  > jeq r6, 9, +5
  > mov r1, r2
  > mov r2, 510
  > call 1
  > mov r0, 0
  > exit
  > ldxdw r0, [r0+0]
  > exit
  > END
  $ assemble loop <<'END'
  > ja -1
  > exit
  > END
  $ assemble matching <<'END'
  > ldxb r6, [r2+0]
  > jne r6, 7, +3
  > mov r1, r2
  > mov r2, 8
  > call 1
  > mov r0, 0
  > exit
  > END
  $ play <<'END'
  > load --slot 0 --program load --emit 512
  > load --slot 0 --program loop --emit 0
  > load --slot 0 --program matching --emit 9
  > result --slot 0
  > run --slot 0 --from 0 --blocks 1 --to 8
  > END
  cpl 1 0700000005000000000001000100840f
  cpl 1 0000000001000000000001000200840f
  cpl 1 040000000a000000000001000300840f
  cpl 1 0000000000000000000001000400820f
  cpl 1 0000000000000000000001000500820f
  $ said
  queue 1, command 1: load of 72 bytes into slot 0: refused: Program Refused (type 7h, code C2h; profile): the bytes are no program, or it is not accepted; slot 7, reason 5 (a load outside)
  queue 1, command 2: load of 16 bytes into slot 0: refused: Program Refused (type 7h, code C2h; profile): the bytes are no program, or it is not accepted; slot 0, reason 1 (a jump backward)
  queue 1, command 3: load of 56 bytes into slot 0: refused: Program Refused (type 7h, code C2h; profile): the bytes are no program, or it is not accepted; slot 4, reason 10 (an emit over the limit)
  queue 1, command 4: result of slot 0: refused: No Such Program (type 7h, code C1h; profile): the slot has no program
  queue 1, command 5: run of slot 0 over 1 block from LBA 0 on, to the zone of LBA 8: refused: No Such Program (type 7h, code C1h; profile): the slot has no program

Programs that are accepted, in the first and the last slot, with the limits that they need and with a whole block.

  $ assemble returning <<'END'
  > mov r0, 0
  > exit
  > END
  $ assemble growing <<'END'
  > ldxb r6, [r2+0]
  > and r6, 7
  > add r6, 1
  > mov r1, r2
  > mov r2, r6
  > call 1
  > mov r0, 0
  > exit
  > END
  $ play <<'END'
  > load --slot 0 --program returning --emit 0
  > load --slot 7 --program returning --emit 512
  > load --slot 0 --program matching --emit 10
  > load --slot 1 --program growing --emit 10
  > load --slot 1 --program growing --emit 513
  > END
  cpl 1 00000000000000000000010001000000
  cpl 1 00000000000000000000010002000000
  cpl 1 00000000000000000000010003000000
  cpl 1 00000000000000000000010004000000
  cpl 1 00000000000000000000010005000400

Results: 1024 zeros up to the end of the first run, then what this left: 40 + 2. While a run uses the slot no program is loaded
there, whatever it is. A load that is refused leaves the result, and one that isn't clears it.

  $ assemble adding <<'END'
  > ldxb r4, [r2+0]
  > ldxdw r5, [r3+0]
  > add r5, r4
  > stxdw [r3+0], r5
  > mov r0, 0
  > exit
  > END
  $ {
  >   zscli entry load --slot 0 --program adding --emit 0 --cid 1
  >   zscli entry result --slot 0 --cid 2
  >   zscli entry run --slot 0 --from 0 --blocks 2 --to 8 --cid 3
  >   echo 'turn 0'
  >   zscli entry result --slot 0 --cid 4
  >   zscli entry load --slot 0 --program returning --emit 0 --cid 5
  >   echo "submit 1 c100060001000000$(zeros 56)"
  >   echo 'turn 0'
  >   zscli entry result --slot 0 --cid 7
  >   echo "submit 1 c100080001000000$(zeros 56)"
  >   zscli entry result --slot 0 --cid 9
  >   zscli entry load --slot 0 --program adding --emit 0 --cid 10
  >   zscli entry result --slot 0 --cid 11
  > } > events
  $ happen
  cpl 1 00000000000000000000010001000000
  cpl 1 00000000000000000000010002000000 00*1024
  pending 0
  pending 0
  cpl 1 00000000000000000000010004000000 00*1024
  cpl 1 0000000000000000000001000500940f
  cpl 1 0000000000000000000001000600940f
  cpl 1 00000000000000000000010003000000
  cpl 1 00000000000000000000010007000000 2a 00*1023
  cpl 1 0000000015000000000001000800840f
  cpl 1 00000000000000000000010009000000 2a 00*1023
  cpl 1 0000000000000000000001000a000000
  cpl 1 0000000000000000000001000b000000 00*1024
  $ cmp image before
