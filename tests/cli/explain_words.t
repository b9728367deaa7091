What `zscli explain` says of each command, of a report that is whole, cut or wrong, and of refusals that have numbers.

  $ bytes() { printf '%0*d' $((2 * $1)) 0; }  # so many bytes of zeros, as digits
  $ head -c 512 /dev/zero > block
  $ head -c 16 /dev/zero > program

Each command, done. The data of a read and of a result stand behind their completions.

  $ {
  >   zscli entry write --lba 18446744073709551615 --data block --cid 1
  >   zscli entry read --lba 3 --blocks 2 --cid 2
  >   zscli entry append --lba 8 --data block --cid 3
  >   zscli entry open --lba 8 --cid 4
  >   zscli entry close --lba 16 --cid 5
  >   zscli entry finish --all --cid 6
  >   zscli entry reset --lba 24 --cid 7
  >   zscli entry offline --lba 32 --cid 8
  >   zscli entry load --slot 7 --program program --emit 0 --cid 9
  >   zscli entry run --slot 6 --from 5 --blocks 65536 --to 64 --cid 10
  >   zscli entry result --slot 5 --cid 11
  > } > commands
  $ for cid in 01 02 03 04 05 06 07 08 09 0a 0b; do
  >   dwords=0000000000000000 data=
  >   case $cid in
  >     02) data=" $(bytes 1024)" ;;
  >     03) dwords=0900000001000000 ;;
  >     0a) dwords=0100000001000000 ;;
  >     0b) data=" $(bytes 1024)" ;;
  >   esac
  >   echo "cpl 1 ${dwords}00000100${cid}000000$data"
  > done > replies
  $ zscli explain replies --commands commands
  queue 1, command 1: write of 1 block from LBA 18446744073709551615 on: done
  queue 1, command 2: read of 2 blocks from LBA 3 on: 1024 bytes
  queue 1, command 3: append of 1 block to the zone of LBA 8: the first is at LBA 4294967305
  queue 1, command 4: open of the zone of LBA 8: done
  queue 1, command 5: close of the zone of LBA 16: done
  queue 1, command 6: finish of all zones that Select All takes: done
  queue 1, command 7: reset of the zone of LBA 24: done
  queue 1, command 8: offline of the zone of LBA 32: done
  queue 1, command 9: load of 16 bytes into slot 7: done
  queue 1, command 10: run of slot 6 over 65536 blocks from LBA 5 on, to the zone of LBA 64: 1 record in 1 block
  queue 1, command 11: result of slot 5: 1024 bytes

As JSON each has its command's word.

  $ zscli explain replies --commands commands --json | sed 's/.*"data_bytes"/"data_bytes"/'
  "data_bytes":0,"line":1,"guess":false,"command":"write"}
  "data_bytes":1024,"line":2,"guess":false,"command":"read"}
  "data_bytes":0,"line":3,"guess":false,"command":"append","lba":4294967305}
  "data_bytes":0,"line":4,"guess":false,"command":"open"}
  "data_bytes":0,"line":5,"guess":false,"command":"close"}
  "data_bytes":0,"line":6,"guess":false,"command":"finish"}
  "data_bytes":0,"line":7,"guess":false,"command":"reset"}
  "data_bytes":0,"line":8,"guess":false,"command":"offline"}
  "data_bytes":0,"line":9,"guess":false,"command":"load"}
  "data_bytes":0,"line":10,"guess":false,"command":"run","records":1,"blocks":1}
  "data_bytes":1024,"line":11,"guess":false,"command":"result"}

A report of all zones that match, one of a zone, one that ends within its header, and one whose second descriptor is
none: its state is 0.

  $ zone() { printf '02%s0%s06%s%02x%s' "$1" $(bytes 6) $(bytes 7) "$2" $(bytes 47); }  # STATE LBA, of 6 blocks
  $ {
  >   zscli entry report --lba 0 --dwords 48 --cid 1
  >   zscli entry report --lba 0 --dwords 32 --cid 2
  >   zscli entry report --lba 0 --dwords 8 --cid 3
  >   zscli entry report --lba 0 --dwords 48 --cid 4
  > } > commands
  $ {
  >   echo "cpl 1 00000000000000000000010001000000 02$(bytes 63)$(zone 1 0)$(zone 4 8)"
  >   echo "cpl 1 00000000000000000000010002000000 01$(bytes 63)$(zone 3 0)"
  >   echo "cpl 1 00000000000000000000010003000000 02$(bytes 31)"
  >   echo "cpl 1 00000000000000000000010004000000 02$(bytes 63)$(zone 2 0)$(zone 0 8)"
  > } > replies
  $ zscli explain replies --commands commands
  queue 1, command 1: report of zones from that of LBA 0 on: 2 zones
    SLBA: 0x0  WP: 0x0  Cap: 0x6  State: 0x10 (Empty)  Type: 0x2  Attrs: 0x0
    SLBA: 0x8  WP: 0x0  Cap: 0x6  State: 0x40 (Closed)  Type: 0x2  Attrs: 0x0
  queue 1, command 2: report of zones from that of LBA 0 on: 1 zone
    SLBA: 0x0  WP: 0x0  Cap: 0x6  State: 0x30 (Explicitly Opened)  Type: 0x2  Attrs: 0x0
  queue 1, command 3: report of zones from that of LBA 0 on: 32 bytes, a beginning of its header
  queue 1, command 4: report of zones from that of LBA 0 on: 2 zones
    SLBA: 0x0  WP: 0x0  Cap: 0x6  State: 0x20 (Implicitly Opened)  Type: 0x2  Attrs: 0x0
    64 bytes that are no zone's descriptor

Programs that are refused, for each reason of the verifier (1 to 10) and each fault of their bytes (20 to 28). Other numbers have no
words.

  $ refused() { printf 'cpl 1 %02x000000%02x%02x0000000001000100840f\n' $1 $(($2 % 256)) $(($2 / 256)); }  # SLOT REASON
  $ for reason in 0 1 2 3 4 5 6 7 8 9 10 11 19 20 21 22 23 24 25 26 27 28 29 255 256; do refused 2 $reason; done > replies
  $ zscli explain replies | sed 's/.*accepted; //'
  slot 2, reason 0
  slot 2, reason 1 (a jump backward)
  slot 2, reason 2 (a jump to no instruction)
  slot 2, reason 3 (a program that falls off)
  slot 2, reason 4 (a write to R10)
  slot 2, reason 5 (a load outside)
  slot 2, reason 6 (a store outside, or into the context or the block)
  slot 2, reason 7 (a helper other than 1)
  slot 2, reason 8 (an emit from an unknown address)
  slot 2, reason 9 (an emit of an unknown length)
  slot 2, reason 10 (an emit over the limit)
  slot 2, reason 11
  slot 2, reason 19
  slot 2, reason 20 (the length is no multiple of 8 bytes)
  slot 2, reason 21 (there is no instruction)
  slot 2, reason 22 (there are more than 4096 slots)
  slot 2, reason 23 (no instruction has this opcode)
  slot 2, reason 24 (there are the registers 0 to 10 alone)
  slot 2, reason 25 (a field that the instruction does not use is not 0)
  slot 2, reason 26 (a wide instruction lacks its second slot)
  slot 2, reason 27 (a field has a value that the instruction cannot have)
  slot 2, reason 28 (the instruction is left out here)
  slot 2, reason 29
  slot 2, reason 255
  slot 2, reason 256

A refusal of another command has no numbers: of one that has some it isn't said what they are.

  $ cat > replies <<'END'
  > cpl 1 05000000010000000000010005000001
  > cpl 1 00000000000000000000010006000000 00
  > END
  $ zscli explain replies
  queue 1, command 5: refused: LBA Out of Range (type 0h, code 80h): a block that the entry names is not in the namespace; dwords 0 and 1: 5, 1
  queue 1, command 6: done; dwords 0 and 1: 0, 0; 1 byte of data

As JSON the line is a guess, where the command can't have such an answer, and the command is null, where the entry is none.

  $ zscli entry read --lba 0 --blocks 1 --cid 5 > commands
  $ zscli entry open --lba 0 --cid 6 >> commands
  $ printf 'submit 1 0300070001000000%s\n' $(bytes 56) >> commands
  $ zscli entry load --slot 0 --program program --emit 0 --cid 8 >> commands
  $ echo 'cpl 1 00000000000000000000010007000200' >> replies
  $ echo 'cpl 1 020000000a000000000001000800840f' >> replies
  $ zscli explain replies --commands commands --json | sed 's/"status":"[^"]*",//'
  {"reply":"completion","queue":1,"identifier":5,"refused":true,"status_type":0,"status_code":128,"dword0":5,"dword1":1,"data_bytes":0,"line":1,"guess":true,"command":"read"}
  {"reply":"completion","queue":1,"identifier":6,"refused":false,"status_type":0,"status_code":0,"dword0":0,"dword1":0,"data_bytes":1,"line":2,"guess":true,"command":"open"}
  {"reply":"completion","queue":1,"identifier":7,"refused":true,"status_type":0,"status_code":1,"dword0":0,"dword1":0,"data_bytes":0,"line":3,"guess":false,"command":null}
  {"reply":"completion","queue":1,"identifier":8,"refused":true,"status_type":7,"status_code":194,"dword0":2,"dword1":10,"data_bytes":0,"line":4,"guess":false,"command":"load"}
