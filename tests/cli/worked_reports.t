Reports of zones, byte by byte. The image has 4 zones of 8 blocks of 512 bytes, 6 of them writable, and at first nothing is written.

  $ zscli format image --block 512 --zones 4 --size 8 --capacity 6 --open 2 --active 3
  $ reported() {  # the data of the last reply, 64 bytes on a line, where bytes that repeat are counted
  >   tail -n 1 replies | cut -d ' ' -f 4 | fold -w 128 | awk '{
  >     line = ""
  >     for (i = 1; i < length($1); i += 2 * n) {
  >       byte = substr($1, i, 2)
  >       for (n = 1; substr($1, i + 2 * n, 2) == byte; n++) ;
  >       line = line " " byte (n > 1 ? "*" n : "")
  >     }
  >     print line
  >   }' | sed 's/^ //'
  > }
  $ report() { zscli entry report "$@" > events && zscli exec image events > replies && reported; }

A report of 160 bytes has room for a header and a descriptor, and 32 bytes are left, which are zeros. The number in the header is that
of all zones; with --partial that of the descriptors. A descriptor has the type 2, the state, the capacity, the lowest block and the
write pointer.

  $ report --lba 0 --dwords 40
  04 00*63
  02 10 00*6 06 00*55
  00*32
  $ report --lba 0 --dwords 40 --partial
  01 00*63
  02 10 00*6 06 00*55
  00*32
  $ zscli explain replies --commands events
  queue 1, command 1: report of zones from that of LBA 0 on: 1 zone
    SLBA: 0x0  WP: 0x0  Cap: 0x6  State: 0x10 (Empty)  Type: 0x2  Attrs: 0x0

A report that is shorter than a header is its beginning.

  $ report --lba 0 --dwords 1
  04 00*3
  $ report --lba 0 --dwords 1 --partial
  00*4

The longest has 131072 bytes: the header, the four zones, and zeros. One dword more is an invalid field, as are 4294967296 dwords.

  $ report --lba 0 --dwords 32768 | uniq -c
        1 04 00*63
        1 02 10 00*6 06 00*55
        1 02 10 00*6 06 00*7 08 00*7 08 00*39
        1 02 10 00*6 06 00*7 10 00*7 10 00*39
        1 02 10 00*6 06 00*7 18 00*7 18 00*39
     2043 00*64
  $ zeros() { printf '%0*d' $((2 * $1)) 0; }  # so many bytes, as digits
  $ echo "submit 1 7a00010001000000$(zeros 32)$(zeros 8)00800000$(zeros 12)" > events
  $ echo "submit 1 7a00020001000000$(zeros 32)$(zeros 8)ffffffff$(zeros 12)" >> events
  $ zscli exec image events
  cpl 1 00000000000000000000010001000400
  cpl 1 00000000000000000000010002000400

So are an action other than 0, and a filter over 7.

  $ echo "submit 1 7a00010001000000$(zeros 32)$(zeros 12)01000000$(zeros 8)" > events
  $ echo "submit 1 7a00020001000000$(zeros 32)$(zeros 12)00080000$(zeros 8)" >> events
  $ zscli exec image events
  cpl 1 00000000000000000000010001000400
  cpl 1 00000000000000000000010002000400

A report begins with the zone of its address, which need not be the zone's lowest, and takes the zones of its state. Zone 1 has a block
now.

  $ head -c 512 /dev/zero > data
  $ zscli entry append --lba 8 --data data > events
  $ zscli exec image events
  cpl 1 08000000000000000000010001000000
  $ report --lba 9 --state empty --dwords 64
  02 00*63
  02 10 00*6 06 00*7 10 00*7 10 00*39
  02 10 00*6 06 00*7 18 00*7 18 00*39
  00*64
  $ report --lba 9 --state empty --dwords 32 --partial
  01 00*63
  02 10 00*6 06 00*7 10 00*7 10 00*39
  $ report --lba 15 --state implicit --dwords 64
  01 00*63
  02 20 00*6 06 00*7 08 00*7 09 00*39
  00*64
  00*64
  $ report --lba 16 --state implicit --dwords 64
  00*64
  00*64
  00*64
  00*64
  $ report --lba 31 --dwords 32
  01 00*63
  02 10 00*6 06 00*7 18 00*7 18 00*39

A zone that is full, read only or offline has no write pointer: it is all ones.

  $ zscli entry finish --lba 8 > events
  $ printf 'fault 2 readonly\nfault 3 offline\n' >> events
  $ zscli exec image events
  cpl 1 00000000000000000000010001000000
  done
  done
  $ report --lba 8 --dwords 64
  03 00*63
  02 e0 00*6 06 00*7 08 00*7 ff*8 00*32
  02 d0 00*6 06 00*7 10 00*7 ff*8 00*32
  02 f0 00*6 06 00*7 18 00*7 ff*8 00*32
  $ zscli explain replies --commands events
  queue 1, command 1: report of zones from that of LBA 8 on: 3 zones
    SLBA: 0x8  WP: 0xffffffffffffffff  Cap: 0x6  State: 0xe0 (Full)  Type: 0x2  Attrs: 0x0
    SLBA: 0x10  WP: 0xffffffffffffffff  Cap: 0x6  State: 0xd0 (Read Only)  Type: 0x2  Attrs: 0x0
    SLBA: 0x18  WP: 0xffffffffffffffff  Cap: 0x6  State: 0xf0 (Offline)  Type: 0x2  Attrs: 0x0
