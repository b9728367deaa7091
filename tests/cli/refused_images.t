Numbers that are no geometry, and files that are no image, are refused: a sentence and a line for scripts, on standard error. What is
printed to standard output is marked.

  $ zscli() { command zscli "$@" > printed; status=$?; sed 's/^/out: /' printed; return $status; }

Each geometry with one number that is wrong. No file is made.

  $ format() { zscli format new --block $1 --zones $2 --size $3 --capacity $4 --open $5 --active $6; }
  $ format 513 4 8 6 2 3
  a block of 513 bytes: the block size is no power of 2 from 512 to 16384
  geometry refused 1
  [3]
  $ format 4294967295 4 8 6 2 3
  a block of 4294967295 bytes: the block size is no power of 2 from 512 to 16384
  geometry refused 1
  [3]
  $ format 512 0 8 6 2 3
  0 zones: the number of zones is not from 1 to 4096
  geometry refused 2
  [3]
  $ format 512 4097 8 6 2 3
  4097 zones: the number of zones is not from 1 to 4096
  geometry refused 2
  [3]
  $ format 512 4 0 6 2 3
  zones of 0 blocks: the zone size is not from 1 to 16777216 blocks
  geometry refused 3
  [3]
  $ format 512 4 8 9 2 3
  9 writable of 8 blocks: the zone capacity is not from 1 to the zone size
  geometry refused 4
  [3]
  $ format 512 4 8 6 3 2
  3 open and 2 active of 4 zones: the limits are not 1 open zone or more, as many active ones or more, and no more than zones
  geometry refused 5
  [3]
  $ format 4096 16 8192 8192 1 1
  16 zones of 8192 writable blocks of 4096 bytes: the zones' capacity is more than 268435456 bytes in all
  geometry refused 6
  [3]
  $ ls
  printed

The parts of an image: the header, which has a block of 512 bytes, 4 zones of 8 blocks, 6 of them writable, and the limits 2 and 3;
zeros; and a row for each zone.

  $ numbers='\0\2\0\0\4\0\0\0\10\0\0\0\6\0\0\0'
  $ limits='\2\0\0\0\3\0\0\0'
  $ empty='\1\0\0\0\0\0\0\0'
  $ zeros() { head -c "$1" /dev/zero; }
  $ row() { printf "$1"; }
  $ header() { printf "ZNSIMG02$numbers$limits" && zeros 32; }
  $ { header; row $empty$empty$empty$empty; } > image
  $ zscli zones image
  out: 0 empty 0
  out: 1 empty 0
  out: 2 empty 0
  out: 3 empty 0

The same as `format` makes.

  $ format 512 4 8 6 2 3
  $ cmp image new

A file without bytes, and one whose rows are cut.

  $ : > image
  $ zscli exec image missing
  image: the file is no whole image: its header, a zone row or a block is cut
  image refused 10
  [3]
  $ { header; row $empty$empty$empty; } > image
  $ zscli zones image
  image: the file is no whole image: its header, a zone row or a block is cut
  image refused 10
  [3]

Another version.

  $ { printf "ZNSIMG03$numbers$limits"; zeros 32; row $empty$empty$empty$empty; } > image
  $ zscli zones image
  image: the first 8 bytes are neither ZNSIMG01 nor ZNSIMG02
  image refused 11
  [3]

Headers that are wrong.

  $ { printf ZNSIMG02; zeros 56; } > image
  $ zscli zones image
  image: header: a block of 0 bytes: the block size is no power of 2 from 512 to 16384
  image refused 12
  [3]
  $ { printf "ZNSIMG02$numbers"'\2\0\0\0\1\0\0\0'; zeros 32; } > image
  $ zscli zones image
  image: header: 2 open and 1 active of 4 zones: the limits are not 1 open zone or more, as many active ones or more, and no more than zones
  image refused 12
  [3]
  $ { printf "ZNSIMG02$numbers"'\1\0\0\0\1\0\0\0'; zeros 31; printf '\1'; } > image
  $ zscli zones image
  image: header: bytes 40 to 63 are not zero
  image refused 12
  [3]
  $ { printf "ZNSIMG01$numbers$limits"; zeros 31; printf '\1'; } > image
  $ zscli zones image
  image: header: bytes 32 to 63 are not zero
  image refused 12
  [3]

Blocks of 8192 bytes, and 1025 zones, of which version 1 has none.

  $ { printf 'ZNSIMG01\0\40\0\0\4\0\0\0\10\0\0\0\6\0\0\0'"$limits"; zeros 32; } > image
  $ zscli zones image
  image: header: a block of 8192 bytes: version 1 has no such size
  image refused 12
  [3]
  $ { printf 'ZNSIMG01\0\2\0\0\1\4\0\0\10\0\0\0\6\0\0\0'"$limits"; zeros 32; } > image
  $ zscli zones image
  image: header: 1025 zones: version 1 has at most 1024
  image refused 12
  [3]

Rows that are wrong.

  $ { header; row $empty$empty$empty'\1\0\0\0\1\0\0\0'; } > image
  $ zscli zones image
  image: row of zone 3: Empty, with 1 of 6 blocks written
  image refused 13
  [3]
  $ { header; row $empty'\2\0\0\0\0\0\0\0'$empty$empty; } > image
  $ zscli zones image
  image: row of zone 1: Implicitly Opened, with 0 of 6 blocks written
  image refused 13
  [3]
  $ { header; row $empty'\2\0\0\0\6\0\0\0'$empty$empty; } > image
  $ zscli zones image
  image: row of zone 1: Implicitly Opened, with 6 of 6 blocks written
  image refused 13
  [3]
  $ { header; row $empty$empty'\5\0\0\0\0\0\0\0\5\0\0\0\0\0\0\0'; } > image
  $ zscli zones image
  image: row of zone 2: no state has code 5h
  image refused 13
  [3]
  $ { header; for it in 0 1 2 3; do row '\1\0\0\1\0\0\0\0'; done; } > image
  $ zscli zones image
  image: row of zone 0: bytes 1 to 3 are not zero
  image refused 13
  [3]

Three open zones with a block each: the header has another number of blocks; the limit of open zones is 2.

  $ open='\2\0\0\0\1\0\0\0'
  $ { header; row $open$open$open$empty; } > image
  $ zscli zones image
  image: the header tells of 0 written blocks, the zone rows of 3
  image refused 18
  [3]
  $ { printf "ZNSIMG02$numbers$limits"'\3'; zeros 31; row $open$open$open$empty; } > image
  $ zscli zones image
  image: 3 open and 3 active zones, of at most 2 and 3
  image refused 14
  [3]

A byte after the last block.

  $ { header; row $empty$empty$empty$empty; zeros 1; } > image
  $ zscli zones image
  image: bytes follow the last block
  image refused 15
  [3]

A block that is missing, one that is cut, and one too many. `zones` reads no block of an ordinary file, and of what comes through a pipe
it lets them go; `exec` reads each.

  $ last() { "$@" 2>&1 | tail -n 1; }
  $ for bytes in 0 511 512 513 1024; do
  >   { printf "ZNSIMG02$numbers$limits"'\1'; zeros 31; row $open$empty$empty$empty; zeros $bytes; } > image
  >   echo "$bytes: $(last zscli zones image), $(cat image | last zscli zones /dev/stdin), $(echo turn 0 | last zscli exec image -)"
  > done
  0: image refused 10, image refused 10, image refused 10
  511: image refused 10, image refused 10, image refused 10
  512: out: 3 empty 0, out: 3 empty 0, out: idle
  513: image refused 15, image refused 15, image refused 15
  1024: image refused 15, image refused 15, image refused 15
  $ { header; row $empty$empty$empty$empty; zeros 1; } > image

Whatever reads an image refuses it so, and leaves it as it is.

  $ cp image before
  $ printf 'turn 0\n' > events
  $ zscli report image
  image: bytes follow the last block
  image refused 15
  [3]
  $ zscli upgrade image
  image: bytes follow the last block
  image refused 15
  [3]
  $ zscli exec image events
  image: bytes follow the last block
  image refused 15
  [3]
  $ zscli serve image < events
  image: bytes follow the last block
  image refused 15
  [3]
  $ cmp image before
  $ ls
  before
  events
  image
  new
  printed
