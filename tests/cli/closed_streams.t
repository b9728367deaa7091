A standard stream that is closed: what is printed goes nowhere, and never into the file that is opened next. What is done is saved.

  $ frames() { python3 "$TESTDIR/frames.py" "$1"; }
  $ zscli format zoned.img --block 512 --zones 4 --size 8 --capacity 6 --open 2 --active 3
  $ head -c 512 /dev/zero | tr '\0' B > block
  $ zscli entry append --lba 0 --data block > append

An image, with each stream closed in turn.

  $ zscli exec zoned.img append >&-
  cannot write -
  [1]
  $ zscli exec zoned.img append 2>&-
  cpl 1 01000000000000000000010001000000
  $ zscli exec zoned.img append <&-
  cpl 1 02000000000000000000010001000000
  $ zscli zones zoned.img
  0 implicit 3
  1 empty 0
  2 empty 0
  3 empty 0

A journal.

  $ frames make < append > asked
  $ zscli serve zoned.img --durable --frames < asked > /dev/null
  $ zscli serve zoned.img --durable --frames < asked >&-
  cannot write -
  [1]
  $ zscli zones zoned.img | sed -n 1p
  0 implicit 5
