What active runs keep from their zones, and runs between each other's turns. The image has 4 zones of 8 blocks of 512 bytes, 6 of them
writable; 2 zones may be open and 3 active.

  $ play() {  # lines of words: prints the replies, `events` and `replies` keep both
  >   zscli entries /dev/stdin > events && zscli exec image events > replies
  >   cut -c 1-60 replies
  > }
  $ said() { zscli explain replies --commands events; }
  $ states() { echo $(zscli zones image | cut -d ' ' -f 2-); }
  $ begin() {
  >   zscli format image --block 512 --zones 4 --size 8 --capacity 6 --open 2 --active 3
  >   play > /dev/null
  >   states
  > }
  $ blocks() { for first; do printf "\\$first%511s" | tr ' ' '\0'; done; }  # with these first bytes, in octal
  $ blocks 1 > one
  $ blocks 7 7 > sevens
  $ blocks 1 1 1 1 1 1 > six
  $ printf 'mov r0, 0\nexit\n' > text
  $ zscli asm text returning
  $ printf 'ldxb r6, [r2]\njne r6, 7, +3\nmov r1, r2\nmov r2, 8\ncall 1\nmov r0, 0\nexit\n' > text
  $ zscli asm text matching

A Reset of all zones would take zone 2, from which a run reads: it is refused whole, and zone 0 isn't reset either.

  $ begin <<'END'
  > append --lba 0 --data six
  > append --lba 16 --data six
  > open --lba 8
  > END
  full 6 explicit 0 full 6 empty 0
  $ play <<'END'
  > load --slot 0 --program returning --emit 0 --cid 1
  > run --slot 0 --from 16 --blocks 1 --to 8 --cid 2
  > reset --all --cid 5
  > END
  cpl 1 00000000000000000000010001000000
  pending 0
  cpl 1 0000000000000000000001000500800f
  cpl 1 00000000000000000000010002000000
  $ said | sed -n 3p
  queue 1, command 5: reset of all zones that Select All takes: refused: Zone Held (type 7h, code C0h; profile): an active run holds the zone against the command
  $ states
  full 6 explicit 0 full 6 empty 0

Two runs with their turns in two orders: one from zone 0 to zone 1, the other from zone 1 to zone 2. Both orders give the same two
completions, and append the same blocks.

  $ begin <<'END'
  > append --lba 0 --data sevens
  > close --lba 0
  > append --lba 8 --data sevens
  > open --lba 16
  > END
  closed 2 implicit 2 explicit 0 empty 0
  $ cp image before
  $ cat > begun <<'END'
  > load --slot 0 --program matching --emit 10
  > run --slot 0 --from 0 --blocks 2 --to 8
  > run --slot 0 --from 8 --blocks 2 --to 16
  > END
  $ { cat begun; printf 'turn 0\nturn 1\nturn 0\nturn 1\n'; } | play
  cpl 1 00000000000000000000010001000000
  pending 0
  pending 1
  pending 0
  pending 1
  cpl 1 02000000010000000000010002000000
  cpl 1 02000000010000000000010003000000
  $ said | tail -n 2
  queue 1, command 2: run of slot 0 over 2 blocks from LBA 0 on, to the zone of LBA 8: 2 records in 1 block
  queue 1, command 3: run of slot 0 over 2 blocks from LBA 8 on, to the zone of LBA 16: 2 records in 1 block
  $ states
  closed 2 implicit 3 explicit 1 empty 0
  $ cp image first
  $ cp before image
  $ { cat begun; printf 'turn 1\nturn 1\nturn 0\nturn 0\n'; } | play
  cpl 1 00000000000000000000010001000000
  pending 0
  pending 1
  pending 1
  cpl 1 02000000010000000000010003000000
  pending 0
  cpl 1 02000000010000000000010002000000
  $ cmp image first
  $ printf 'read --lba 10 --blocks 1\nread --lba 16 --blocks 1\n' | play > short
  $ cut -d ' ' -f 4 replies | sed 's/0*$//' | uniq -c
        2 08000700000000000000080007
  $ awk '{ print length($4) }' replies
  1024
  1024

A run from zone 0 to zone 1 after the first of two turns. Its source isn't reset, its destination takes no append, no write and no
action, and neither has a fault. A write to zone 3 needs an open zone: zone 2 gives way, and not zone 1, which is lower. A program can't be loaded
over the one that runs.

  $ begin <<'END'
  > append --lba 0 --data six
  > append --lba 8 --data one
  > append --lba 16 --data one
  > END
  full 6 implicit 1 implicit 1 empty 0
  $ play <<'END'
  > load --slot 0 --program returning --emit 0
  > run --slot 0 --from 0 --blocks 2 --to 8
  > turn 0
  > reset --lba 0
  > append --lba 8 --data one
  > fault 0 readonly
  > fault 0 offline
  > write --lba 24 --data one
  > load --slot 0 --program returning --emit 0
  > write --lba 9 --data one
  > finish --lba 8
  > fault 1 readonly
  > report --lba 0 --dwords 80
  > turn 0
  > reset --lba 0
  > END
  cpl 1 00000000000000000000010001000000
  pending 0
  pending 0
  cpl 1 0000000000000000000001000300800f
  cpl 1 0000000000000000000001000400800f
  refused
  refused
  cpl 1 00000000000000000000010005000000
  cpl 1 0000000000000000000001000600940f
  cpl 1 0000000000000000000001000700800f
  cpl 1 0000000000000000000001000800800f
  refused
  cpl 1 00000000000000000000010009000000 040000000000000000000
  cpl 1 00000000000000000000010002000000
  cpl 1 0000000000000000000001000a000000
  $ said | sed -n 4,17p
  queue 1, command 3: reset of the zone of LBA 0: refused: Zone Held (type 7h, code C0h; profile): an active run holds the zone against the command
  queue 1, command 4: append of 1 block to the zone of LBA 8: refused: Zone Held (type 7h, code C0h; profile): an active run holds the zone against the command
  refused: a fault of a zone that does not exist, that a run uses, or that is Offline and cannot become Read Only
  refused: a fault of a zone that does not exist, that a run uses, or that is Offline and cannot become Read Only
  queue 1, command 5: write of 1 block from LBA 24 on: done
  queue 1, command 6: load of 16 bytes into slot 0: refused: Program in Use (type 7h, code CAh; profile): an active run uses the slot's program
  queue 1, command 7: write of 1 block from LBA 9 on: refused: Zone Held (type 7h, code C0h; profile): an active run holds the zone against the command
  queue 1, command 8: finish of the zone of LBA 8: refused: Zone Held (type 7h, code C0h; profile): an active run holds the zone against the command
  refused: a fault of a zone that does not exist, that a run uses, or that is Offline and cannot become Read Only
  queue 1, command 9: report of zones from that of LBA 0 on: 4 zones
    SLBA: 0x0  WP: 0xffffffffffffffff  Cap: 0x6  State: 0xe0 (Full)  Type: 0x2  Attrs: 0x0
    SLBA: 0x8  WP: 0x9  Cap: 0x6  State: 0x20 (Implicitly Opened)  Type: 0x2  Attrs: 0x0
    SLBA: 0x10  WP: 0x11  Cap: 0x6  State: 0x40 (Closed)  Type: 0x2  Attrs: 0x0
    SLBA: 0x18  WP: 0x19  Cap: 0x6  State: 0x20 (Implicitly Opened)  Type: 0x2  Attrs: 0x0
  $ states
  empty 0 implicit 1 closed 1 implicit 1

A destination isn't closed with all zones either. The source may be appended to, closed and finished.

  $ begin <<'END'
  > append --lba 0 --data sevens
  > open --lba 8
  > END
  implicit 2 explicit 0 empty 0 empty 0
  $ play <<'END'
  > load --slot 0 --program returning --emit 0
  > run --slot 0 --from 0 --blocks 2 --to 8
  > close --all
  > append --lba 0 --data one
  > close --lba 0
  > finish --lba 0
  > END
  cpl 1 00000000000000000000010001000000
  pending 0
  cpl 1 0000000000000000000001000300800f
  cpl 1 02000000000000000000010004000000
  cpl 1 00000000000000000000010005000000
  cpl 1 00000000000000000000010006000000
  pending 0
  cpl 1 00000000000000000000010002000000
  $ states
  full 3 explicit 0 empty 0 empty 0

Two runs in each other's zones: each zone is a destination, whatever else it is, and another zone may have a fault between their turns.

  $ begin <<'END'
  > append --lba 0 --data sevens
  > append --lba 8 --data sevens
  > END
  implicit 2 implicit 2 empty 0 empty 0
  $ play <<'END'
  > load --slot 0 --program matching --emit 10
  > run --slot 0 --from 0 --blocks 2 --to 8
  > run --slot 0 --from 8 --blocks 2 --to 0
  > append --lba 0 --data one
  > append --lba 8 --data one
  > reset --lba 0
  > finish --lba 8
  > run --slot 0 --from 0 --blocks 1 --to 8
  > fault 0 offline
  > fault 1 readonly
  > turn 1
  > fault 2 offline
  > turn 0
  > turn 0
  > turn 1
  > read --lba 2 --blocks 2
  > read --lba 10 --blocks 2
  > fault 0 readonly
  > reset --lba 8
  > END
  cpl 1 00000000000000000000010001000000
  pending 0
  pending 1
  cpl 1 0000000000000000000001000400800f
  cpl 1 0000000000000000000001000500800f
  cpl 1 0000000000000000000001000600800f
  cpl 1 0000000000000000000001000700800f
  cpl 1 0000000000000000000001000800800f
  refused
  refused
  pending 1
  done
  pending 0
  cpl 1 02000000010000000000010002000000
  cpl 1 02000000010000000000010003000000
  cpl 1 00000000000000000000010009000000 080007000000000000000
  cpl 1 0000000000000000000001000a000000 080007000000000000000
  done
  cpl 1 0000000000000000000001000b000000
  $ grep ' 0800' replies | cut -d ' ' -f 4 | fold -w 1024 | sed 's/0*$//'
  08000700000000000000080007
  
  08000700000000000000080007
  
  $ states
  readonly 3 empty 0 offline 0 empty 0
