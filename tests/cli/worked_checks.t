In which order an entry is checked: the first thing that is wrong decides. The image has 4 zones of 8 blocks of 512 bytes, 6 of them
writable; none is changed here but where a scene says so.

  $ zscli format image --block 512 --zones 4 --size 8 --capacity 6 --open 2 --active 3
  $ cp image empty
  $ zeros() { printf '%0*d' $((2 * $1)) 0; }  # so many bytes, as digits
  $ entry() {  # DWORDS-0-AND-1 DWORDS-10-ON [DATA]: an entry in hexadecimal; what is missing of it is zeros
  >   printf 'submit 1 %s%s%s %s\n' "$1" $(zeros 32) "$(printf '%-48s' "$2" | tr ' ' 0)" "$3"
  > }
  $ play() {
  >   zscli exec image events > replies
  >   cut -c 1-60 replies
  >   zscli explain replies --commands events
  > }
  $ head -c 512 /dev/zero > data1
  $ head -c 1024 /dev/zero > data2
  $ head -c 3072 /dev/zero > data6
  $ head -c 4096 /dev/zero > data8

The opcode comes before the flags, the flags before the namespace. Opcode 03 is none; flags other than 0 are an invalid field; there is
no namespace 2, and none of number 0.

  $ entry 0301060001000000 > events
  $ entry 0201070002000000 >> events
  $ entry 0200080000000000 >> events
  $ play
  cpl 1 00000000000000000000010006000200
  cpl 1 00000000000000000000010007000400
  cpl 1 00000000000000000000010008001600
  queue 1, command 6: an entry that is no command: refused: Invalid Command Opcode (type 0h, code 01h): the opcode is none that is supported
  queue 1, command 7: an entry that is no command: refused: Invalid Field in Command (type 0h, code 02h): a field has a value that it may not have, or the data is not as long as the fields say
  queue 1, command 8: an entry that is no command: refused: Invalid Namespace or Format (type 0h, code 0Bh): the namespace is not 1

Bits that mean nothing here are ignored, whatever they are: the upper flags, the 32 bytes of pointers, and what a command doesn't use
of dwords 10 to 15. These are a read of a block, a reset of zone 1, and a report of 64 bytes on empty zones.

  $ ones() { zeros $1 | tr 0 f; }
  $ {
  >   echo "submit 1 02fc010001000000$(ones 32)00000000000000000000ffff$(ones 12)"
  >   echo "submit 1 79fc020001000000$(ones 32)0800000000000000ffffffff04feffff$(ones 8)"
  >   echo "submit 1 7afc030001000000$(ones 32)09000000000000000f0000000001feff$(ones 8)"
  > } > events
  $ play
  cpl 1 00000000000000000000010001000000 000000000000000000000
  cpl 1 00000000000000000000010002000000
  cpl 1 00000000000000000000010003000000 030000000000000000000
  queue 1, command 1: read of 1 block from LBA 0 on: 512 bytes
  queue 1, command 2: reset of the zone of LBA 8: done
  queue 1, command 3: report of zones from that of LBA 9 on: 0 of 3 zones

Fields come before addresses: an action that isn't there, at LBA 99, which isn't there either; a write of one block with 511 bytes
beside it; a read with a block beside it; a load of 16 bytes with 8 beside it; program slot 8; a run and a result with a byte beside them; a load
with more bytes to emit than a block has.

  $ entry 7900010001000000 63000000000000000000000006 > events
  $ entry 0100020001000000 000000000000000000000000 $(zeros 511) >> events
  $ entry 0200030001000000 000000000000000000000000 $(zeros 512) >> events
  $ entry c100040001000000 000000000000000010 b700000000000000 >> events
  $ entry c100050001000000 080000000000000000 >> events
  $ entry c000060001000000 00000000000000000000000000000000080000 00 >> events
  $ entry c200070001000000 00000000 00 >> events
  $ entry c100080001000000 000000000102000010 b7000000000000009500000000000000 >> events
  $ play
  cpl 1 00000000000000000000010001000400
  cpl 1 00000000000000000000010002000400
  cpl 1 00000000000000000000010003000400
  cpl 1 00000000000000000000010004000400
  cpl 1 00000000000000000000010005000400
  cpl 1 00000000000000000000010006000400
  cpl 1 00000000000000000000010007000400
  cpl 1 00000000000000000000010008000400
  queue 1, command 1: an entry that is no command: refused: Invalid Field in Command (type 0h, code 02h): a field has a value that it may not have, or the data is not as long as the fields say
  queue 1, command 2: write of 1 block from LBA 0 on: refused: Invalid Field in Command (type 0h, code 02h): a field has a value that it may not have, or the data is not as long as the fields say
  queue 1, command 3: read of 1 block from LBA 0 on: refused: Invalid Field in Command (type 0h, code 02h): a field has a value that it may not have, or the data is not as long as the fields say
  queue 1, command 4: load of 16 bytes into slot 0: refused: Invalid Field in Command (type 0h, code 02h): a field has a value that it may not have, or the data is not as long as the fields say
  queue 1, command 5: an entry that is no command: refused: Invalid Field in Command (type 0h, code 02h): a field has a value that it may not have, or the data is not as long as the fields say
  queue 1, command 6: run of slot 0 over 1 block from LBA 0 on, to the zone of LBA 8: refused: Invalid Field in Command (type 0h, code 02h): a field has a value that it may not have, or the data is not as long as the fields say
  queue 1, command 7: result of slot 0: refused: Invalid Field in Command (type 0h, code 02h): a field has a value that it may not have, or the data is not as long as the fields say
  queue 1, command 8: load of 16 bytes into slot 0: refused: Invalid Field in Command (type 0h, code 02h): a field has a value that it may not have, or the data is not as long as the fields say

The length of a transfer comes before its address: 257 blocks are more than 131072 bytes, and 256 are not, but there are only 32 blocks.
No address passes the last one that 64 bits have.

  $ {
  >   zscli entry read --lba 0 --blocks 257 --cid 1
  >   zscli entry read --lba 0 --blocks 256 --cid 2
  >   zscli entry read --lba 0xffffffffffffffff --blocks 2 --cid 3
  >   zscli entry read --lba 31 --blocks 2 --cid 4
  >   zscli entry read --lba 24 --blocks 9 --cid 5
  > } > events
  $ play
  cpl 1 00000000000000000000010001000400
  cpl 1 00000000000000000000010002000001
  cpl 1 00000000000000000000010003000001
  cpl 1 00000000000000000000010004000001
  cpl 1 00000000000000000000010005000001
  queue 1, command 1: read of 257 blocks from LBA 0 on: refused: Invalid Field in Command (type 0h, code 02h): a field has a value that it may not have, or the data is not as long as the fields say
  queue 1, command 2: read of 256 blocks from LBA 0 on: refused: LBA Out of Range (type 0h, code 80h): a block that the entry names is not in the namespace
  queue 1, command 3: read of 2 blocks from LBA 18446744073709551615 on: refused: LBA Out of Range (type 0h, code 80h): a block that the entry names is not in the namespace
  queue 1, command 4: read of 2 blocks from LBA 31 on: refused: LBA Out of Range (type 0h, code 80h): a block that the entry names is not in the namespace
  queue 1, command 5: read of 9 blocks from LBA 24 on: refused: LBA Out of Range (type 0h, code 80h): a block that the entry names is not in the namespace

So it is for the other commands, at the first LBAs that aren't there and at the last that there could be.

  $ for lba in 32 33 39 0x100000000 0xfffffffffffffffe 0xffffffffffffffff; do
  >   zscli entry append --lba $lba --data data1 --cid 1
  >   zscli entry write --lba $lba --data data1 --cid 2
  >   zscli entry open --lba $lba --cid 3
  >   zscli entry reset --lba $lba --cid 4
  >   zscli entry offline --lba $lba --cid 5
  >   zscli entry report --lba $lba --cid 6
  >   zscli entry read --lba $lba --blocks 1 --cid 7
  >   zscli entry append --lba $lba --data data8 --cid 8
  >   zscli entry write --lba $lba --data data8 --cid 9
  > done > events
  $ zscli exec image events | sort | uniq -c
        6 cpl 1 00000000000000000000010001000001
        6 cpl 1 00000000000000000000010002000001
        6 cpl 1 00000000000000000000010003000001
        6 cpl 1 00000000000000000000010004000001
        6 cpl 1 00000000000000000000010005000001
        6 cpl 1 00000000000000000000010006000001
        6 cpl 1 00000000000000000000010007000001
        6 cpl 1 00000000000000000000010008000001
        6 cpl 1 00000000000000000000010009000001

An action on all zones doesn't look at the address.

  $ entry 7900010001000000 ffffffffffffffff0000000004010000 > events
  $ play
  cpl 1 00000000000000000000010001000000
  queue 1, command 1: reset of all zones that Select All takes: done

An append and an action name a zone by its lowest block, which comes after the address, and before the zone's state.

  $ zscli entry append --lba 31 --data data1 > events
  $ zscli entry reset --lba 31 --cid 2 >> events
  $ play
  cpl 1 00000000000000000000010001000400
  cpl 1 00000000000000000000010002000400
  queue 1, command 1: append of 1 block to the zone of LBA 31: refused: Invalid Field in Command (type 0h, code 02h): a field has a value that it may not have, or the data is not as long as the fields say
  queue 1, command 2: reset of the zone of LBA 31: refused: Invalid Field in Command (type 0h, code 02h): a field has a value that it may not have, or the data is not as long as the fields say
  $ cmp image empty

A write past the capacity of an empty zone does not start at the write pointer.

  $ zscli entry write --lba 6 --data data1 --cid 1 > events
  $ zscli entry write --lba 31 --data data1 --cid 2 >> events
  $ play
  cpl 1 00000000000000000000010001007803
  cpl 1 00000000000000000000010002007803
  queue 1, command 1: write of 1 block from LBA 6 on: refused: Zone Invalid Write (type 1h, code BCh): a Write that does not begin at the zone's write pointer
  queue 1, command 2: write of 1 block from LBA 31 on: refused: Zone Invalid Write (type 1h, code BCh): a Write that does not begin at the zone's write pointer
  $ cmp image empty

Of a full zone it says that the zone is full. A write into the next zone is a Zone Boundary Error, though the zone is full.

  $ zscli entry append --lba 0 --data data6 --cid 1 > events
  $ zscli entry write --lba 6 --data data1 --cid 2 >> events
  $ zscli entry write --lba 7 --data data2 --cid 3 >> events
  $ play
  cpl 1 00000000000000000000010001000000
  cpl 1 00000000000000000000010002007203
  cpl 1 00000000000000000000010003007003
  queue 1, command 1: append of 6 blocks to the zone of LBA 0: the first is at LBA 0
  queue 1, command 2: write of 1 block from LBA 6 on: refused: Zone Is Full (type 1h, code B9h): a write to a Full zone
  queue 1, command 3: write of 2 blocks from LBA 7 on: refused: Zone Boundary Error (type 1h, code B8h): a Read or the source of a Run passes its zone's end, or a write its zone's capacity
