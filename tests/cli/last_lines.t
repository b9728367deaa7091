What a command that fails prints to standard error, all of it, and its status. Nothing is printed to standard output: it would be marked.

  $ zscli() { command zscli "$@" > printed; status=$?; sed 's/^/out: /' printed; return $status; }

A file that isn't there, a file that can't be made, and standard output that takes nothing.

  $ zscli zones missing.img
  missing.img: no such file or folder
  cannot read missing.img
  [1]
  $ printf 'ldxb r6, [r2]\njne r6, 7, +3\nmov r1, r2\nmov r2, 8\ncall 1\nmov r0, 0\nexit\n' > text
  $ zscli asm text program
  $ zscli asm text none/made
  none/made: no such file or folder
  cannot write none/made
  [1]
  $ zscli disasm .
  .: it is a folder
  cannot read .
  [1]
  $ zscli zones text/image
  text/image: a part of its path is no folder
  cannot read text/image
  [1]
  $ command zscli disasm program > /dev/full
  -: no room is left
  cannot write -
  [1]

Input that is refused.

  $ zscli format new --block 512 --zones 0 --size 8 --capacity 6 --open 2 --active 3
  0 zones: the number of zones is not from 1 to 4096
  geometry refused 2
  [3]
  $ for it in 1 2 3 4 5 6 7 8; do printf ZNSIMG03; done > image
  $ zscli zones image
  image: the first 8 bytes are neither ZNSIMG01 nor ZNSIMG02
  image refused 11
  [3]
  $ rm image
  $ zscli format image --block 512 --zones 4 --size 8 --capacity 6 --open 2 --active 3
  $ printf 'turn 0\nturn' > events
  $ zscli exec image events
  events, line 2: "turn": turn is expected with a run alone
  line 2 refused
  [3]
  $ printf 'exit\nsum r1, r2' > text
  $ zscli asm text made
  text, line 2: "sum r1, r2": a mnemonic is expected as the first word, or behind the label
  assembly refused 2 1
  [3]
  $ printf '\225\225\225\225\225\225\225' > short
  $ zscli disasm short
  short, 7 bytes: the length is no multiple of 8 bytes
  program refused 0 20
  [3]
  $ head -c 513 /dev/zero > packed
  $ zscli unpack packed --block 512
  packed, byte 512: 1 of the 512 bytes of a block; whole blocks are expected
  frame refused 512
  [3]
  $ ls made new
  ls: cannot access 'made': No such file or directory
  ls: cannot access 'new': No such file or directory
  [2]

Of PROGRAM, BLOCK, a block's size and `--emit` the first that is wrong is named; a word that is no number before all.

  $ head -c 100 /dev/zero > short
  $ head -c 512 /dev/zero > block
  $ zscli trace program block --emit 513
  --emit gives 513 bytes, and a block has 512
  emit exceeds block
  [2]
  $ zscli verify program --block 1024 --emit 4294967295
  --emit gives 4294967295 bytes, and a block has 1024
  emit exceeds block
  [2]
  $ zscli trace program short --emit 513
  short: 100 bytes; a block has a power of 2 from 512 to 16384
  geometry refused 1
  [3]
  $ zscli verify program --block 513 --emit 514
  a block of 513 bytes: the block size is no power of 2 from 512 to 16384
  geometry refused 1
  [3]
  $ zscli unpack gone --block 513
  gone: no such file or folder
  cannot read gone
  [1]
  $ zscli unpack short --block 513
  a block of 513 bytes: the block size is no power of 2 from 512 to 16384
  geometry refused 1
  [3]
  $ zscli trace gone gone too --emit 513
  error: unexpected argument 'too' found
  
  Usage: zscli trace [OPTIONS] <PROGRAM> <BLOCK>
  
  For more information, try '--help'.
  [2]
  $ zscli trace program gone --emit 513
  gone: no such file or folder
  cannot read gone
  [1]
  $ zscli verify gone --block 513 --emit 514
  gone: no such file or folder
  cannot read gone
  [1]

Numbers of options are decimal digits alone.

  $ zscli format new --block 0x200 --zones 4 --size 8 --capacity 6 --open 2 --active 3
  --block: '0x200' is not a block size (512, 1024, 2048, 4096, 8192 or 16384)
  [2]
  $ zscli verify gone --block 512 --emit 0x0
  --emit: '0x0' is not a number from 0 to 4294967295
  [2]
  $ zscli verify gone --block +512 --emit 0
  --block: '+512' is not a block size (512, 1024, 2048, 4096, 8192 or 16384)
  [2]
  $ zscli trace gone gone --emit 4294967296
  --emit: '4294967296' is not a number from 0 to 4294967295
  [2]
  $ zscli trace gone gone --argument 0x1
  --argument: '0x1' is not a number from 0 to 4294967295
  [2]
  $ zscli trace gone gone --fuel 0x1
  --fuel: '0x1' is not a number from 0 to 4294967295
  [2]
  $ zscli unpack gone --block 0x200
  --block: '0x200' is not a block size (512, 1024, 2048, 4096, 8192 or 16384)
  [2]

A word that is no block size is told the sizes; a number that is none is told as the geometry's first fault.

  $ zscli format new --block 4k --zones 4 --size 8 --capacity 6 --open 2 --active 3
  --block: '4k' is not a block size (512, 1024, 2048, 4096, 8192 or 16384)
  [2]
  $ zscli verify program --block 513 --emit 0
  a block of 513 bytes: the block size is no power of 2 from 512 to 16384
  geometry refused 1
  [3]
  $ zscli entries gone --block 4k
  --block: '4k' is not a block size (512, 1024, 2048, 4096, 8192 or 16384)
  [2]

What a terminal obeys is shown escaped in names and words, and nothing else. The first is compared byte for byte, since cram would
escape what isn't ASCII.

  $ name=$(printf '\033[2J\t\177\302\200\302\237\302\240\303\251"\\.img')
  $ zscli zones "$name" > said 2>&1
  [1]
  $ printf '%s: no such file or folder\ncannot read %s\n' > wanted \
  >     "$(printf '\\x1b[2J\\x09\\x7f\\xc2\\x80\\xc2\\x9f\302\240\303\251"\\.img')" \
  >     "$(printf '\\x1b[2J\\x09\\x7f\\xc2\\x80\\xc2\\x9f\302\240\303\251"\\.img')"
  $ cmp said wanted
  $ zscli unpack gone --block "$(printf '5\a')"
  --block: '5\x07' is not a block size (512, 1024, 2048, 4096, 8192 or 16384)
  [2]
  $ name=$(printf 'a\nb')
  $ printf sum > "$name"
  $ zscli asm "$name" made
  a\x0ab, line 1: "sum": a mnemonic is expected as the first word, or behind the label
  assembly refused 1 1
  [3]
  $ zscli "$(printf 'f\033ly')"
  error: unrecognized subcommand 'f\x1bly'
  
  Usage: zscli <COMMAND>
  
  For more information, try '--help'.
  [2]
  $ zscli zones "$(printf '\377')"
  error: a word of the command line is not text
  [2]
