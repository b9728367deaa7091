Zones that are written, read, opened, closed and finished, entry by entry. The image has 4 zones of 8 blocks of 512 bytes, 6 of them
writable; 2 zones may be open and 3 active.

  $ new() {
  >   zscli format image --block 512 --zones 4 --size 8 --capacity 6 --open 2 --active 3
  > }
  $ play() { zscli entries /dev/stdin > events && zscli exec image events > replies; brief; }
  $ said() { zscli explain replies --commands events; }
  $ brief() {  # the replies, where bytes of data that repeat are counted
  >   awk '{
  >     line = $1 (NF > 1 ? " " $2 : "") (NF > 2 ? " " $3 : "")
  >     for (i = 1; i < length($4); i += 2 * n) {
  >       byte = substr($4, i, 2)
  >       for (n = 1; substr($4, i + 2 * n, 2) == byte; n++) ;
  >       line = line " " byte (n > 1 ? "*" n : "")
  >     }
  >     print line
  >   }' replies
  > }
  $ for n in 1 2 5 6; do head -c $((512 * n)) /dev/zero | tr '\0' '\252' > data$n; done

An append of a block to zone 1, byte by byte: the opcode 7d, the command identifier 1, namespace 1, 32 bytes of zeros, LBA 8. Its
completion gives LBA 8, queue 1 and the identifier; the zone is now opened by a write. A read of that block gives its bytes.

  $ new
  $ zeros() { printf '%0*d' $((2 * $1)) 0; }  # so many bytes, as digits
  $ echo "submit 1 7d00010001000000$(zeros 32)08000000$(zeros 20) $(xxd -p data1 | tr -d '\n')" > events
  $ zscli exec image events
  cpl 1 08000000000000000000010001000000
  $ zscli zones image
  0 empty 0
  1 implicit 1
  2 empty 0
  3 empty 0
  $ echo "submit 1 0200020001000000$(zeros 32)08000000$(zeros 20)" > events
  $ zscli exec image events > replies
  $ brief
  cpl 1 00000000000000000000010002000000 aa*512

A write that is not at the write pointer: Zone Invalid Write, and nothing changes.

  $ cp image before
  $ play <<'END'
  > write --lba 10 --data data1 --cid 3
  > END
  cpl 1 00000000000000000000010003007803
  $ said
  queue 1, command 3: write of 1 block from LBA 10 on: refused: Zone Invalid Write (type 1h, code BCh): a Write that does not begin at the zone's write pointer
  $ cmp image before

One that is at the write pointer goes there.

  $ play <<'END'
  > write --lba 9 --data data1
  > read --lba 8 --blocks 2
  > END
  cpl 1 00000000000000000000010001000000
  cpl 1 00000000000000000000010002000000 aa*1024

An append of 6 blocks fills zone 2, which then holds no resource; one block more finds it full. What isn't written reads as zeros,
also after the capacity; a read can't leave its zone.

  $ new
  $ play <<'END'
  > append --lba 16 --data data6
  > END
  cpl 1 10000000000000000000010001000000
  $ zscli report image
  block 512 bytes, 4 zones of 8 blocks, capacity 6 blocks, open 0 of 2, active 0 of 3
    start: 0x000000000, len 0x000008, cap 0x000006, wptr 0x000000 reset:0 non-seq:0, zcond: 1(em) [type: 2(SEQ_WRITE_REQUIRED)]
    start: 0x000000008, len 0x000008, cap 0x000006, wptr 0x000000 reset:0 non-seq:0, zcond: 1(em) [type: 2(SEQ_WRITE_REQUIRED)]
    start: 0x000000010, len 0x000008, cap 0x000006, wptr 0x000008 reset:0 non-seq:0, zcond:14(fu) [type: 2(SEQ_WRITE_REQUIRED)]
    start: 0x000000018, len 0x000008, cap 0x000006, wptr 0x000000 reset:0 non-seq:0, zcond: 1(em) [type: 2(SEQ_WRITE_REQUIRED)]
  $ play <<'END'
  > append --lba 16 --data data1 --cid 4
  > read --lba 16 --blocks 6
  > read --lba 20 --blocks 4
  > read --lba 22 --blocks 2
  > read --lba 23 --blocks 2
  > END
  cpl 1 00000000000000000000010004007203
  cpl 1 00000000000000000000010005000000 aa*3072
  cpl 1 00000000000000000000010006000000 aa*1024 00*1024
  cpl 1 00000000000000000000010007000000 00*1024
  cpl 1 00000000000000000000010008007003
  $ said | grep refused
  queue 1, command 4: append of 1 block to the zone of LBA 16: refused: Zone Is Full (type 1h, code B9h): a write to a Full zone
  queue 1, command 8: read of 2 blocks from LBA 23 on: refused: Zone Boundary Error (type 1h, code B8h): a Read or the source of a Run passes its zone's end, or a write its zone's capacity

An append of more blocks than are left of the capacity is a Zone Boundary Error, and the zone is not full then: the block that fits
is appended.

  $ new
  $ play <<'END'
  > append --lba 0 --data data5
  > END
  cpl 1 00000000000000000000010001000000
  $ cp image before
  $ play <<'END'
  > append --lba 0 --data data2
  > END
  cpl 1 00000000000000000000010001007003
  $ cmp image before
  $ play <<'END'
  > append --lba 0 --data data1
  > END
  cpl 1 05000000000000000000010001000000
  $ zscli zones image | sed -n 1p
  0 full 6

An append names a zone by its lowest block; any other is an invalid field.

  $ new
  $ play <<'END'
  > append --lba 9 --data data1 --cid 6
  > END
  cpl 1 00000000000000000000010006000400
  $ said
  queue 1, command 6: append of 1 block to the zone of LBA 9: refused: Invalid Field in Command (type 0h, code 02h): a field has a value that it may not have, or the data is not as long as the fields say

Open, Close and Finish of zone 3, of which nothing is written.

  $ play <<'END'
  > open --lba 24
  > END
  cpl 1 00000000000000000000010001000000
  $ zscli zones image | tail -n 1
  3 explicit 0
  $ play <<'END'
  > close --lba 24
  > END
  cpl 1 00000000000000000000010001000000
  $ zscli zones image | tail -n 1
  3 closed 0
  $ play <<'END'
  > finish --lba 24
  > report --lba 24 --dwords 32
  > END
  cpl 1 00000000000000000000010001000000
  cpl 1 00000000000000000000010002000000 01 00*63 02 e0 00*6 06 00*7 18 00*7 ff*8 00*32
  $ zscli zones image | tail -n 1
  3 full 0
  $ said
  queue 1, command 1: finish of the zone of LBA 24: done
  queue 1, command 2: report of zones from that of LBA 24 on: 1 zone
    SLBA: 0x18  WP: 0xffffffffffffffff  Cap: 0x6  State: 0xe0 (Full)  Type: 0x2  Attrs: 0x0

Finish again succeeds; Open of a full zone does not. A Reset empties it.

  $ play <<'END'
  > finish --lba 24
  > open --lba 24
  > append --lba 24 --data data1
  > reset --lba 24
  > END
  cpl 1 00000000000000000000010001000000
  cpl 1 00000000000000000000010002007e03
  cpl 1 00000000000000000000010003007203
  cpl 1 00000000000000000000010004000000
  $ said | grep refused
  queue 1, command 2: open of the zone of LBA 24: refused: Invalid Zone State Transition (type 1h, code BFh): the zone's state does not allow the action
  queue 1, command 3: append of 1 block to the zone of LBA 24: refused: Zone Is Full (type 1h, code B9h): a write to a Full zone
  $ zscli zones image | tail -n 1
  3 empty 0
