Records that `zscli unpack` reads back from output blocks: frames of a length in two bytes and so many bytes, then zeros.

  $ block() {  # FRONT LAST: a block of 512 bytes that begins and ends with these bytes, in hexadecimal
  >   printf '%s%0*d%s' "$1" $((1024 - ${#1} - ${#2})) 0 "$2" | xxd -r -p
  > }

One record of three bytes. Where the block's last byte isn't zero, that byte is refused, and nothing is printed.

  $ block 0300616263 > blocks
  $ zscli unpack blocks --block 512
  616263
  $ zscli unpack blocks --block 512 --json
  {"records":[{"length":3,"bytes":"616263"}]}
  $ block 0300616263 01 > blocks
  $ zscli unpack blocks --block 512 > out
  blocks, byte 511: 01h; a frame that ends in its block, or zeros to its end, are expected
  frame refused 511
  [3]
  $ cat out

A frame that passes the block's end is refused at its length. One of 510 bytes fills the block; after one of 509 a byte is left, which
has to be zero.

  $ block ff01 > blocks
  $ zscli unpack blocks --block 512
  blocks, byte 0: ffh; a frame that ends in its block, or zeros to its end, are expected
  frame refused 0
  [3]
  $ block fe01 ab > blocks
  $ zscli unpack blocks --block 512 | cut -c 1-4,1019-
  0000ab
  $ zscli unpack blocks --block 512 | tr -d '\n' | wc -c
  1020
  $ block fd01 > blocks
  $ zscli unpack blocks --block 512 | tr -d '\n' | wc -c
  1018
  $ block fd01 01 > blocks
  $ zscli unpack blocks --block 512
  blocks, byte 511: 01h; a frame that ends in its block, or zeros to its end, are expected
  frame refused 511
  [3]

A last part that is shorter than a block is refused at its first byte. A file of no bytes has no records.

  $ { block 0300616263; printf '\0'; } > blocks
  $ zscli unpack blocks --block 512
  blocks, byte 512: 1 of the 512 bytes of a block; whole blocks are expected
  frame refused 512
  [3]
  $ printf '' > blocks
  $ zscli unpack blocks --block 512

Records of several blocks are printed in order; of a file with wrong bytes the lowest is named.

  $ { block 01006101006202006364; block 010065; } > blocks
  $ zscli unpack blocks --block 512
  61
  62
  6364
  65
  $ { block 010061 01; block ff01; } > blocks
  $ zscli unpack blocks --block 512
  blocks, byte 511: 01h; a frame that ends in its block, or zeros to its end, are expected
  frame refused 511
  [3]

A block of the largest size that one record fills, and sizes that no block has; the file is read before.

  $ { printf '\376\077'; head -c 16382 /dev/zero | tr '\0' x; } > large
  $ zscli unpack large --block 16384 | tr -d '\n' | wc -c
  32764
  $ zscli unpack large --block 16384 | fold -w 2 | uniq -c
    16382 78
  $ zscli unpack large --block 513
  a block of 513 bytes: the block size is no power of 2 from 512 to 16384
  geometry refused 1
  [3]
  $ zscli unpack large --block 32768
  a block of 32768 bytes: the block size is no power of 2 from 512 to 16384
  geometry refused 1
  [3]
  $ zscli unpack gone --block 513
  gone: no such file or folder
  cannot read gone
  [1]

Standard output that takes nothing.

  $ zscli unpack large --block 16384 > /dev/full
  -: no room is left
  cannot write -
  [1]
