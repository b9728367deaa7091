What `zscli explain` says of the lines that `zscli exec` prints. With `--commands` it says what each completion answers; without,
both of what its dwords can be.

A pushdown: a filter runs over blocks of zone 0 into zone 1, with other queues between its turns. The words don't depend on the
data, which are zeros here.

  $ zeros() { head -c "$1" /dev/zero; }
  $ zeros 512 > record
  $ zeros 6656 > records
  $ zeros 64 > filter
  $ zscli entry append --lba 0 --data records --cid 1 > commands
  $ zscli entry append --lba 0 --data records --cid 2 >> commands
  $ zscli entry open --lba 64 --cid 5 >> commands
  $ zscli entry load --slot 0 --program filter --emit 66 --cid 6 >> commands
  $ zscli entry run --slot 0 --from 0 --blocks 52 --to 64 --argument 3 --cid 7 >> commands
  $ echo 'turn 0' >> commands
  $ zscli entry append --lba 128 --data record --queue 2 --cid 1 >> commands
  $ zscli entry append --lba 64 --data record --queue 2 --cid 2 >> commands
  $ zscli entry reset --lba 0 --queue 3 --cid 2 >> commands
  $ zscli entry read --lba 64 --blocks 2 --cid 8 >> commands
  $ cat > replies <<'END'
  > cpl 1 00000000000000000000010001000000
  > cpl 1 0d000000000000000000010002000000
  > cpl 1 00000000000000000000010005000000
  > cpl 1 00000000000000000000010006000000
  > pending 0
  > cpl 2 80000000000000000000020001000000
  > cpl 2 0000000000000000000002000200800f
  > cpl 3 0000000000000000000003000200800f
  > cpl 1 09000000020000000000010007000000
  > END
  $ echo "cpl 1 00000000000000000000010008000000 $(zeros 1024 | xxd -p | tr -d '\n')" >> replies
  $ zscli explain replies --commands commands
  queue 1, command 1: append of 13 blocks to the zone of LBA 0: the first is at LBA 0
  queue 1, command 2: append of 13 blocks to the zone of LBA 0: the first is at LBA 13
  queue 1, command 5: open of the zone of LBA 64: done
  queue 1, command 6: load of 64 bytes into slot 0: done
  pending 0: run 0 was admitted, or had a turn, and has turns left
  queue 2, command 1: append of 1 block to the zone of LBA 128: the first is at LBA 128
  queue 2, command 2: append of 1 block to the zone of LBA 64: refused: Zone Held (type 7h, code C0h; profile): an active run holds the zone against the command
  queue 3, command 2: reset of the zone of LBA 0: refused: Zone Held (type 7h, code C0h; profile): an active run holds the zone against the command
  queue 1, command 7: run of slot 0 over 52 blocks from LBA 0 on, to the zone of LBA 64: 9 records in 2 blocks
  queue 1, command 8: read of 2 blocks from LBA 64 on: 1024 bytes
  $ zscli explain replies
  queue 1, command 1: done; dwords 0 and 1: 0, 0
  queue 1, command 2: done; dwords 0 and 1: 13, 0 (of an append: the first block is at LBA 13; of a run: 13 records in 0 blocks)
  queue 1, command 5: done; dwords 0 and 1: 0, 0
  queue 1, command 6: done; dwords 0 and 1: 0, 0
  pending 0: run 0 was admitted, or had a turn, and has turns left
  queue 2, command 1: done; dwords 0 and 1: 128, 0 (of an append: the first block is at LBA 128; of a run: 128 records in 0 blocks)
  queue 2, command 2: refused: Zone Held (type 7h, code C0h; profile): an active run holds the zone against the command
  queue 3, command 2: refused: Zone Held (type 7h, code C0h; profile): an active run holds the zone against the command
  queue 1, command 7: done; dwords 0 and 1: 9, 2 (of an append: the first block is at LBA 8589934601; of a run: 9 records in 2 blocks)
  queue 1, command 8: done; dwords 0 and 1: 0, 0; 1024 bytes of data

What `exec` prints of an example goes through a pipe.

  $ pushdown=$TESTDIR/../../examples/pushdown.cmd
  $ cp "$TESTDIR/../../examples/empty.img" zoned.img
  $ zscli exec zoned.img "$pushdown" | zscli explain /dev/stdin --commands "$pushdown" | tail -n 2
  queue 1, command 7: run of slot 0 over 52 blocks from LBA 0 on, to the zone of LBA 64: 9 records in 2 blocks
  queue 1, command 8: read of 2 blocks from LBA 64 on: 1024 bytes

A report of 192 bytes. Three zones match, and there is room for the descriptors of two.

  $ zscli entry report --lba 0 --dwords 48 --cid 4 > commands
  $ bytes() { printf '%0*d' $((2 * $1)) 0; }  # so many bytes of zeros
  $ {
  >   printf 'cpl 1 00000000000000000000010004000000 03%s' $(bytes 63)
  >   printf '0220%s06%s03%s' $(bytes 6) $(bytes 15) $(bytes 39)
  >   printf '02e0%s06%s08%sffffffffffffffff%s\n' $(bytes 6) $(bytes 7) $(bytes 7) $(bytes 32)
  > } > replies
  $ zscli explain replies --commands commands
  queue 1, command 4: report of zones from that of LBA 0 on: 2 of 3 zones
    SLBA: 0x0  WP: 0x3  Cap: 0x6  State: 0x20 (Implicitly Opened)  Type: 0x2  Attrs: 0x0
    SLBA: 0x8  WP: 0xffffffffffffffff  Cap: 0x6  State: 0xe0 (Full)  Type: 0x2  Attrs: 0x0
  $ zscli explain replies
  queue 1, command 4: done; dwords 0 and 1: 0, 0; 192 bytes of data

Two submissions with one identifier, of which one comes after the other's completion, a load of no bytes, an entry that is no
command, and a fault. One line of the replies has no submission, and the last is no completion of this device: it has another
queue inside.

  $ entry() {  # DWORD0: an entry to queue 1 with this dword and namespace 1, without data
  >   printf 'submit 1 %s01000000%s\n' "$1" $(bytes 56)
  > }
  $ zscli entry write --lba 10 --data record --cid 3 > commands
  $ zscli entry open --all --cid 3 >> commands
  $ entry c1000900 >> commands
  $ entry 03000600 >> commands
  $ echo 'fault 2 offline' >> commands
  $ cat > replies <<'END'
  > cpl 1 00000000000000000000010003007203
  > cpl 1 00000000000000000000010003000000
  > cpl 1 030000000a000000000001000900840f
  > cpl 1 00000000000000000000010006000200
  > done
  > cpl 1 00000000000000000000010002000000
  > refused
  > idle
  > pending 3
  > cpl 2 00000000000000000000010003000000
  > END
  $ zscli explain replies --commands commands
  queue 1, command 3: write of 1 block from LBA 10 on: refused: Zone Is Full (type 1h, code B9h): a write to a Full zone
  queue 1, command 3: open of all zones that Select All takes: done
  queue 1, command 9: load of 0 bytes into slot 0: refused: Program Refused (type 7h, code C2h; profile): the bytes are no program, or it is not accepted; slot 3, reason 10 (an emit over the limit)
  queue 1, command 6: an entry that is no command: refused: Invalid Command Opcode (type 0h, code 01h): the opcode is none that is supported
  done: a zone has its fault
  queue 1, command 2: no submission of commands is left for it: done; dwords 0 and 1: 0, 0
  refused: a fault of a zone that does not exist, that a run uses, or that is Offline and cannot become Read Only
  idle: a turn for a run that is not active
  pending 3: run 3 was admitted, or had a turn, and has turns left
  queue 2: 16 bytes that are no completion of this device
