A journal is read in pieces of 256 KiB as it is opened. Forty batches of 16 KiB, of which some go across the end of a piece: each opening does
those before it again.

  $ zscli format image --block 4096 --zones 2 --size 256 --capacity 256 --open 2 --active 2
  $ head -c 8192 /dev/zero | tr '\0' B > two
  $ zscli entry append --lba 0 --data two --block 4096 > short
  $ for n in $(seq 40); do zscli serve image --durable < short; done > answers
  $ tail -n 1 answers
  cpl 1 4e000000000000000000010001000000
  $ wc -c < image
  663552

A batch that is longer than a piece, and one after it.

  $ head -c 131072 /dev/zero | tr '\0' C > large
  $ zscli entry append --lba 256 --data large --block 4096 > line
  $ cat line line line > long
  $ zscli serve image --durable < long
  cpl 1 00010000000000000000010001000000
  cpl 1 20010000000000000000010001000000
  cpl 1 40010000000000000000010001000000
  $ wc -c < image
  1064960
  $ zscli serve image --durable < short
  cpl 1 50000000000000000000010001000000
  $ wc -c < image
  1081344

What is opened in pieces is what is read at once.

  $ cp image whole
  $ zscli fold image
  $ zscli zones image
  0 implicit 82
  1 implicit 96
  $ zscli upgrade image
  $ cp whole read
  $ zscli upgrade read
  $ cmp image read

The last batch isn't there where a crash left its gate closed. Damage before and in the long batch is reported as ever.

  $ cp whole cut
  $ dd if=/dev/zero of=cut bs=4096 seek=259 count=1 conv=notrunc 2> /dev/null
  $ zscli serve cut --durable < short
  cpl 1 50000000000000000000010001000000
  $ cmp cut whole
  $ change() { dd of="$1" bs=1 seek="$2" conv=notrunc 2> /dev/null; }
  $ cp whole damaged
  $ printf D | change damaged 1000000
  $ zscli serve damaged --durable < short
  damaged: damaged at byte 659456: batches up to number 40 are whole, 1 after it are readable; `zscli fold IMAGE --salvage TO` saves the whole ones
  journal refused 659456
  [3]
  $ cp whole damaged
  $ printf D | change damaged 290000
  $ zscli serve damaged --durable < short
  damaged: damaged at byte 282624: batches up to number 17 are whole, 24 after it are readable; `zscli fold IMAGE --salvage TO` saves the whole ones
  journal refused 282624
  [3]
  $ printf D | change damaged 0
  $ zscli serve damaged --durable < short
  damaged: the first 8 bytes are neither ZNSIMG01 nor ZNSIMG02
  image refused 11
  [3]
