Which runs are admitted: the first thing that is wrong decides, and a run that is refused changes nothing.

  $ play() {  # lines of words: prints the replies, `events` and `replies` keep both
  >   zscli entries /dev/stdin > events && zscli exec image events > replies
  >   cat replies
  > }
  $ said() { zscli explain replies --commands events; }
  $ states() { echo $(zscli zones image | cut -d ' ' -f 2-); }
  $ head -c 512 /dev/zero > one
  $ head -c 1536 /dev/zero > three
  $ head -c 4096 /dev/zero > eight
  $ printf 'mov r0, 0\nexit\n' > text
  $ zscli asm text returning

An image of 4 zones of 8 blocks, 6 of them writable. Zone 0 has 3 blocks, zone 1 is open, zone 2 offline, and zone 3 closed with a block.

  $ zscli format image --block 512 --zones 4 --size 8 --capacity 6 --open 2 --active 3
  $ play <<'END' > setup
  > append --lba 0 --data three
  > close --lba 0
  > append --lba 24 --data one
  > close --lba 24
  > open --lba 8
  > fault 2 offline
  > END
  $ states
  closed 3 explicit 0 offline 0 closed 1
  $ cp image before

A slot without a program comes before all addresses. Then the source and the destination have to be there.

  $ play <<'END'
  > load --slot 0 --program returning --emit 0
  > run --slot 1 --from 99 --blocks 1 --to 8
  > run --slot 0 --from 32 --blocks 1 --to 8
  > run --slot 0 --from 31 --blocks 2 --to 8
  > run --slot 0 --from 0 --blocks 65536 --to 8
  > run --slot 0 --from 0xffffffffffffffff --blocks 1 --to 8
  > run --slot 0 --from 0xffffffffffffffff --blocks 65536 --to 8
  > run --slot 0 --from 0 --blocks 1 --to 32
  > run --slot 0 --from 0 --blocks 1 --to 0xffffffffffffffff
  > run --slot 0 --from 32 --blocks 1 --to 9
  > END
  cpl 1 00000000000000000000010001000000
  cpl 1 0000000000000000000001000200820f
  cpl 1 00000000000000000000010003000001
  cpl 1 00000000000000000000010004000001
  cpl 1 00000000000000000000010005000001
  cpl 1 00000000000000000000010006000001
  cpl 1 00000000000000000000010007000001
  cpl 1 00000000000000000000010008000001
  cpl 1 00000000000000000000010009000001
  cpl 1 0000000000000000000001000a000001
  $ said | sed -n '2,3p'
  queue 1, command 2: run of slot 1 over 1 block from LBA 99 on, to the zone of LBA 8: refused: No Such Program (type 7h, code C1h; profile): the slot has no program
  queue 1, command 3: run of slot 0 over 1 block from LBA 32 on, to the zone of LBA 8: refused: LBA Out of Range (type 0h, code 80h): a block that the entry names is not in the namespace

The destination is named by its lowest block, and is another zone than the source. The source is in one zone, that is not offline, and is
written. The destination is open.

  $ play <<'END'
  > load --slot 0 --program returning --emit 0
  > run --slot 0 --from 0 --blocks 1 --to 9
  > run --slot 0 --from 0 --blocks 1 --to 1
  > run --slot 0 --from 0 --blocks 1 --to 0
  > run --slot 0 --from 8 --blocks 1 --to 8
  > run --slot 0 --from 6 --blocks 3 --to 8
  > run --slot 0 --from 22 --blocks 3 --to 8
  > run --slot 0 --from 16 --blocks 1 --to 8
  > run --slot 0 --from 0 --blocks 4 --to 8
  > run --slot 0 --from 3 --blocks 1 --to 8
  > run --slot 0 --from 0 --blocks 4 --to 24
  > run --slot 0 --from 0 --blocks 1 --to 16
  > run --slot 0 --from 0 --blocks 3 --to 24
  > turn 0
  > END
  cpl 1 00000000000000000000010001000000
  cpl 1 00000000000000000000010002000400
  cpl 1 00000000000000000000010003000400
  cpl 1 0000000000000000000001000400920f
  cpl 1 0000000000000000000001000500920f
  cpl 1 00000000000000000000010006007003
  cpl 1 00000000000000000000010007007003
  cpl 1 00000000000000000000010008007603
  cpl 1 0000000000000000000001000900880f
  cpl 1 0000000000000000000001000a00880f
  cpl 1 0000000000000000000001000b00880f
  cpl 1 0000000000000000000001000c008a0f
  cpl 1 0000000000000000000001000d008a0f
  idle
  $ said | grep refused | cut -d : -f 2-
   run of slot 0 over 1 block from LBA 0 on, to the zone of LBA 9: refused: Invalid Field in Command (type 0h, code 02h): a field has a value that it may not have, or the data is not as long as the fields say
   run of slot 0 over 1 block from LBA 0 on, to the zone of LBA 1: refused: Invalid Field in Command (type 0h, code 02h): a field has a value that it may not have, or the data is not as long as the fields say
   run of slot 0 over 1 block from LBA 0 on, to the zone of LBA 0: refused: Source Is Destination (type 7h, code C9h; profile): the run's source and its destination are one zone
   run of slot 0 over 1 block from LBA 8 on, to the zone of LBA 8: refused: Source Is Destination (type 7h, code C9h; profile): the run's source and its destination are one zone
   run of slot 0 over 3 blocks from LBA 6 on, to the zone of LBA 8: refused: Zone Boundary Error (type 1h, code B8h): a Read or the source of a Run passes its zone's end, or a write its zone's capacity
   run of slot 0 over 3 blocks from LBA 22 on, to the zone of LBA 8: refused: Zone Boundary Error (type 1h, code B8h): a Read or the source of a Run passes its zone's end, or a write its zone's capacity
   run of slot 0 over 1 block from LBA 16 on, to the zone of LBA 8: refused: Zone Is Offline (type 1h, code BBh): a Read of an Offline zone, a Run from one, or a write to one
   run of slot 0 over 4 blocks from LBA 0 on, to the zone of LBA 8: refused: Source Not Written (type 7h, code C4h; profile): not all of the blocks that the run is to read are written
   run of slot 0 over 1 block from LBA 3 on, to the zone of LBA 8: refused: Source Not Written (type 7h, code C4h; profile): not all of the blocks that the run is to read are written
   run of slot 0 over 4 blocks from LBA 0 on, to the zone of LBA 24: refused: Source Not Written (type 7h, code C4h; profile): not all of the blocks that the run is to read are written
   run of slot 0 over 1 block from LBA 0 on, to the zone of LBA 16: refused: Destination Not Open (type 7h, code C5h; profile): the zone that the run is to append to is not open
   run of slot 0 over 3 blocks from LBA 0 on, to the zone of LBA 24: refused: Destination Not Open (type 7h, code C5h; profile): the zone that the run is to append to is not open
  $ cmp image before

An image with a zone of each state, and one more that is open. Each but an empty and an offline one can be a source.

  $ zscli format image --block 512 --zones 8 --size 8 --capacity 8 --open 6 --active 6
  $ play <<'END' > setup
  > append --lba 0 --data eight
  > append --lba 8 --data one
  > open --lba 16
  > append --lba 16 --data one
  > append --lba 24 --data one
  > close --lba 24
  > append --lba 32 --data one
  > fault 4 readonly
  > fault 6 offline
  > open --lba 56
  > END
  $ states
  full 8 implicit 1 explicit 1 closed 1 readonly 1 empty 0 offline 0 explicit 0
  $ cp image before
  $ for lba in 0 8 16 24 32 40 48; do
  >   echo "run --slot 0 --from $lba --blocks 1 --to 56"
  >   echo 'turn 0'
  > done > words
  $ { echo 'load --slot 0 --program returning --emit 0'; cat words; } | play
  cpl 1 00000000000000000000010001000000
  pending 0
  cpl 1 00000000000000000000010002000000
  pending 0
  cpl 1 00000000000000000000010003000000
  pending 0
  cpl 1 00000000000000000000010004000000
  pending 0
  cpl 1 00000000000000000000010005000000
  pending 0
  cpl 1 00000000000000000000010006000000
  cpl 1 0000000000000000000001000700880f
  idle
  cpl 1 00000000000000000000010008007603
  idle
  $ cmp image before

Only the open ones can be a destination.

  $ {
  >   echo 'load --slot 0 --program returning --emit 0'
  >   echo 'run --slot 0 --from 8 --blocks 1 --to 0'
  >   for lba in 8 16 24 32 40 48; do
  >     echo "run --slot 0 --from 0 --blocks 1 --to $lba"
  >     echo 'turn 0'
  >   done
  > } | play
  cpl 1 00000000000000000000010001000000
  cpl 1 00000000000000000000010002008a0f
  pending 0
  cpl 1 00000000000000000000010003000000
  pending 0
  cpl 1 00000000000000000000010004000000
  cpl 1 00000000000000000000010005008a0f
  idle
  cpl 1 00000000000000000000010006008a0f
  idle
  cpl 1 00000000000000000000010007008a0f
  idle
  cpl 1 00000000000000000000010008008a0f
  idle
  $ cmp image before

Eight runs at a time, with the lowest numbers that are free. Zone 0 of 12 is full, and zones 1 to 9 are open.

  $ zscli format image --block 512 --zones 12 --size 8 --capacity 8 --open 10 --active 10
  $ {
  >   echo 'append --lba 0 --data eight'
  >   for zone in 1 2 3 4 5 6 7 8 9; do echo "open --lba $((8 * zone))"; done
  > } | play > setup
  $ states
  full 8 explicit 0 explicit 0 explicit 0 explicit 0 explicit 0 explicit 0 explicit 0 explicit 0 explicit 0 empty 0 empty 0
  $ {
  >   echo 'load --slot 0 --program returning --emit 0'
  >   for zone in 1 2 3 4 5 6 7 8; do echo "run --slot 0 --from 0 --blocks 1 --to $((8 * zone))"; done
  > } > begun

A ninth is refused with No Run Free; that its source is its destination, or that there is no such zone, comes before. After the turn that
completes run 2 zone 1 is still another's destination, and a run to zone 9 gets number 2.

  $ {
  >   cat begun
  >   echo 'run --slot 0 --from 0 --blocks 1 --to 72 --cid 10'
  >   echo 'run --slot 0 --from 0 --blocks 1 --to 0'
  >   echo 'run --slot 0 --from 0 --blocks 1 --to 96'
  >   echo 'turn 2'
  >   echo 'run --slot 0 --from 0 --blocks 1 --to 8'
  >   echo 'run --slot 0 --from 0 --blocks 1 --to 72'
  > } | play
  cpl 1 00000000000000000000010001000000
  pending 0
  pending 1
  pending 2
  pending 3
  pending 4
  pending 5
  pending 6
  pending 7
  cpl 1 0000000000000000000001000a00860f
  cpl 1 0000000000000000000001000b00920f
  cpl 1 0000000000000000000001000c000001
  cpl 1 00000000000000000000010004000000
  cpl 1 0000000000000000000001000d00800f
  pending 2
  cpl 1 00000000000000000000010002000000
  cpl 1 00000000000000000000010003000000
  cpl 1 0000000000000000000001000e000000
  cpl 1 00000000000000000000010005000000
  cpl 1 00000000000000000000010006000000
  cpl 1 00000000000000000000010007000000
  cpl 1 00000000000000000000010008000000
  cpl 1 00000000000000000000010009000000
  $ said | sed -n '10,12p;14p'
  queue 1, command 10: run of slot 0 over 1 block from LBA 0 on, to the zone of LBA 72: refused: No Run Free (type 7h, code C3h; profile): as many runs are active as can be
  queue 1, command 11: run of slot 0 over 1 block from LBA 0 on, to the zone of LBA 0: refused: Source Is Destination (type 7h, code C9h; profile): the run's source and its destination are one zone
  queue 1, command 12: run of slot 0 over 1 block from LBA 0 on, to the zone of LBA 96: refused: LBA Out of Range (type 0h, code 80h): a block that the entry names is not in the namespace
  queue 1, command 13: run of slot 0 over 1 block from LBA 0 on, to the zone of LBA 8: refused: Zone Held (type 7h, code C0h; profile): an active run holds the zone against the command
