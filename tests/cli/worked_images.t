Image files: the numbers that `format` takes, each fault of a file that is no image, and both versions.

  $ new() {
  >   zscli format "$1" --block 512 --zones 4 --size 8 --capacity 6 --open 2 --active 3
  > }
  $ with() {  # OFFSET BYTES ..: a copy of `image` in `copy` with these bytes, as printf has them, at these places
  >   cp image copy
  >   while [ $# -gt 0 ]; do
  >     printf "$2" | dd of=copy bs=1 seek="$1" conv=notrunc status=none
  >     shift 2
  >   done
  > }

Numbers that are no geometry: block size, zones, size, capacity, limits, and more than 268435456 bytes in all. No file is made.

  $ shape() { zscli format made --block $1 --zones $2 --size $3 --capacity $4 --open $5 --active $6; }
  $ shape 513 4 8 6 2 3
  a block of 513 bytes: the block size is no power of 2 from 512 to 16384
  geometry refused 1
  [3]
  $ shape 512 0 8 6 2 3
  0 zones: the number of zones is not from 1 to 4096
  geometry refused 2
  [3]
  $ shape 512 4 0 6 2 3
  zones of 0 blocks: the zone size is not from 1 to 16777216 blocks
  geometry refused 3
  [3]
  $ shape 512 4 8 9 2 3
  9 writable of 8 blocks: the zone capacity is not from 1 to the zone size
  geometry refused 4
  [3]
  $ shape 512 4 8 6 3 2
  3 open and 2 active of 4 zones: the limits are not 1 open zone or more, as many active ones or more, and no more than zones
  geometry refused 5
  [3]
  $ shape 4096 16 8192 8192 1 1
  16 zones of 8192 writable blocks of 4096 bytes: the zones' capacity is more than 268435456 bytes in all
  geometry refused 6
  [3]
  $ ls

The largest blocks and the most zones, and what is beyond them.

  $ shape 16384 4 8 6 2 3 && zscli report made | sed -n 1p
  block 16384 bytes, 4 zones of 8 blocks, capacity 6 blocks, open 0 of 2, active 0 of 3
  $ shape 512 4096 8 1 1 1 && zscli report made | sed -n 1p
  block 512 bytes, 4096 zones of 8 blocks, capacity 1 blocks, open 0 of 1, active 0 of 1
  $ shape 8192 4096 9 9 1 1
  4096 zones of 9 writable blocks of 8192 bytes: the zones' capacity is more than 268435456 bytes in all
  geometry refused 6
  [3]
  $ shape 32768 4 8 8 1 1
  a block of 32768 bytes: the block size is no power of 2 from 512 to 16384
  geometry refused 1
  [3]
  $ shape 8192 4097 8 8 1 1
  4097 zones: the number of zones is not from 1 to 4096
  geometry refused 2
  [3]

An image of 4 empty zones has 96 bytes: a header of 64, and 8 for each zone. Version 1 differs only in byte 7.

  $ new image
  $ xxd -p -c 32 image
  5a4e53494d473032000200000400000008000000060000000200000003000000
  0000000000000000000000000000000000000000000000000000000000000000
  0100000000000000010000000000000001000000000000000100000000000000
  $ wc -c < image
  96
  $ with 7 1
  $ xxd -l 8 copy
  00000000: 5a4e 5349 4d47 3031                      ZNSIMG01
  $ zscli zones copy
  0 empty 0
  1 empty 0
  2 empty 0
  3 empty 0

A byte fewer, a byte more, no bytes, and another first byte.

  $ head -c 95 image > copy && zscli zones copy
  copy: the file is no whole image: its header, a zone row or a block is cut
  image refused 10
  [3]
  $ { cat image; printf '\0'; } > copy && zscli zones copy
  copy: bytes follow the last block
  image refused 15
  [3]
  $ printf '' > copy && zscli zones copy
  copy: the file is no whole image: its header, a zone row or a block is cut
  image refused 10
  [3]
  $ with 0 '\0' && zscli zones copy
  copy: the first 8 bytes are neither ZNSIMG01 nor ZNSIMG02
  image refused 11
  [3]

The same for version 1.

  $ with 7 1 && cp copy old
  $ head -c 95 old > copy && zscli zones copy
  copy: the file is no whole image: its header, a zone row or a block is cut
  image refused 10
  [3]
  $ { cat old; printf '\0'; } > copy && zscli zones copy
  copy: bytes follow the last block
  image refused 15
  [3]
  $ with 7 1 0 '\0' && zscli zones copy
  copy: the first 8 bytes are neither ZNSIMG01 nor ZNSIMG02
  image refused 11
  [3]

A header with wrong numbers, or with a byte that isn't zero where zeros are reserved.

  $ head -c 64 image > copy && zscli zones copy
  copy: the file is no whole image: its header, a zone row or a block is cut
  image refused 10
  [3]
  $ with 8 '\1' && head -c 64 copy > short && zscli zones short
  short: header: a block of 513 bytes: the block size is no power of 2 from 512 to 16384
  image refused 12
  [3]
  $ with 20 '\11' && zscli zones copy
  copy: header: 9 writable of 8 blocks: the zone capacity is not from 1 to the zone size
  image refused 12
  [3]
  $ with 40 '\1' && zscli zones copy
  copy: header: bytes 40 to 63 are not zero
  image refused 12
  [3]
  $ with 63 '\1' && zscli zones copy
  copy: header: bytes 40 to 63 are not zero
  image refused 12
  [3]

A zone's record: opened by a write with no block, or with all 6 of them; a state that there isn't; a byte that isn't zero.

  $ with 64 '\2' && zscli zones copy
  copy: row of zone 0: Implicitly Opened, with 0 of 6 blocks written
  image refused 13
  [3]
  $ with 64 '\2' 68 '\6' && zscli zones copy
  copy: row of zone 0: Implicitly Opened, with 6 of 6 blocks written
  image refused 13
  [3]
  $ with 72 '\5' && zscli zones copy
  copy: row of zone 1: no state has code 5h
  image refused 13
  [3]
  $ with 91 '\1' && zscli zones copy
  copy: row of zone 3: bytes 1 to 3 are not zero
  image refused 13
  [3]

Three open zones, where two may be; and a header that counts another number of written blocks than the zones do, which comes first.

  $ with 64 '\3' 72 '\3' 80 '\3' && zscli zones copy
  copy: 3 open and 3 active zones, of at most 2 and 3
  image refused 14
  [3]
  $ with 32 '\1' 64 '\3' 68 '\1' 72 '\3' 80 '\3' && zscli zones copy
  copy: 3 open and 3 active zones, of at most 2 and 3
  image refused 14
  [3]
  $ with 64 '\3' 68 '\1' 72 '\3' 80 '\3' && zscli zones copy
  copy: the header tells of 0 written blocks, the zone rows of 1
  image refused 18
  [3]
  $ with 39 '\1' && zscli zones copy
  copy: the header tells of 72057594037927936 written blocks, the zone rows of 0
  image refused 18
  [3]
  $ with 32 '\1' 91 '\1' && zscli zones copy
  copy: row of zone 3: bytes 1 to 3 are not zero
  image refused 13
  [3]

Version 1 has at most 1024 zones, and blocks of at most 4096 bytes. Of this shape the file is then only too short.

  $ with 7 1 12 '\1\4' && zscli zones copy
  copy: header: 1025 zones: version 1 has at most 1024
  image refused 12
  [3]
  $ with 7 1 9 '\40' && zscli zones copy
  copy: header: a block of 8192 bytes: version 1 has no such size
  image refused 12
  [3]
  $ with 7 1 12 '\0\4' && zscli zones copy
  copy: the file is no whole image: its header, a zone row or a block is cut
  image refused 10
  [3]
  $ with 12 '\1\4' && zscli zones copy
  copy: the file is no whole image: its header, a zone row or a block is cut
  image refused 10
  [3]

An image with one block written has 608 bytes; the record of its zone has state 2 and one block.

  $ head -c 512 /dev/zero | tr '\0' '\132' > block
  $ zscli entry append --lba 8 --data block > events
  $ zscli exec image events
  cpl 1 08000000000000000000010001000000
  $ wc -c < image
  608
  $ xxd -s 72 -l 8 -p image
  0200000001000000
  $ zscli zones image
  0 empty 0
  1 implicit 1
  2 empty 0
  3 empty 0

`upgrade` makes of its version 1 the same file: they differ in byte 7 and in the count of written blocks. Again it changes nothing.

  $ with 7 1 32 '\0' && cp copy old
  $ zscli upgrade old
  $ cmp -l copy old
    8  61  62
   33   0   1
  [1]
  $ cmp old image
  $ zscli upgrade old
  $ cmp old image
  $ with 32 '\2' && zscli upgrade copy
  copy: the header tells of 2 written blocks, the zone rows of 1
  image refused 18
  [3]

Each version with the other's digit is refused: a count that isn't there, and one that version 1 has no room for.

  $ with 32 '\0' && zscli zones copy
  copy: the header tells of 0 written blocks, the zone rows of 1
  image refused 18
  [3]
  $ with 7 1 && zscli zones copy
  copy: header: bytes 32 to 63 are not zero
  image refused 12
  [3]

Cut off anywhere it is refused as too short; here at each byte of the header and of the records, and in places of the block. With another
byte in the magic it is refused as no image.

  $ for length in $(seq 0 99) 351 352 606 607; do
  >   head -c $length image > copy
  >   zscli zones copy 2>&1 | tail -n 1
  > done | uniq -c
      104 image refused 10
  $ for place in 0 1 2 3 4 5 6 7; do
  >   with $place '\377'
  >   zscli zones copy 2>&1 | tail -n 1
  > done | uniq -c
        8 image refused 11
  $ { cat image; printf '\0'; } > copy && zscli zones copy
  copy: bytes follow the last block
  image refused 15
  [3]
