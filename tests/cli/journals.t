Where a command takes an image it takes a journal too. Frames are made from words, and shown in words, by frames.py.

  $ frames() { python3 "$TESTDIR/frames.py" "$1"; }
  $ format() { zscli format image --block 512 --zones 4 --size 8 --capacity 6 --open 2 --active 3; }
  $ refused() { zscli "$@" > printed; status=$?; sed 's/^/out: /' printed; return $status; }
  $ serve() { frames make > asked; zscli serve image --durable --frames < asked | frames show; }

A journal: the empty image, and an append of a block to zone 0.

  $ head -c 512 /dev/zero | tr '\0' B > block
  $ zscli entry append --lba 0 --data block > append
  $ format
  $ serve < append
  cpl 1 00000000000000000000010001000000
  $ cp image journal
  $ head -c 8 journal
  ZNSJRN01 (no-eol)

The same device as an image.

  $ rm image
  $ format
  $ zscli exec image append
  cpl 1 00000000000000000000010001000000
  $ mv image one_block
  $ head -c 8 one_block
  ZNSIMG02 (no-eol)
  $ wc -c < one_block
  608

What only reads does the journal again, and leaves it.

  $ cp journal image
  $ zscli zones image
  0 implicit 1
  1 empty 0
  2 empty 0
  3 empty 0
  $ zscli report image | sed -n 1,2p
  block 512 bytes, 4 zones of 8 blocks, capacity 6 blocks, open 1 of 2, active 1 of 3
    start: 0x000000000, len 0x000008, cap 0x000006, wptr 0x000001 reset:0 non-seq:0, zcond: 2(oi) [type: 2(SEQ_WRITE_REQUIRED)]
  $ printf 'open --lba 8 --cid 1\n' > words
  $ zscli entries words --image image > made
  $ zscli entry open --lba 8 --cid 1 | cmp - made
  $ cmp image journal

What saves an image makes one of version 2 of it, also where nothing happens.

  $ printf 'turn 0\n' > events
  $ zscli exec image events
  idle
  $ cmp image one_block
  $ cp journal image
  $ zscli exec image events --profile 3
  idle
  $ cmp image one_block
  $ cp journal image
  $ zscli upgrade image
  $ cmp image one_block
  $ cp journal image
  $ echo save | frames make > asked
  $ zscli serve image --frames < asked | frames show
  saved
  $ cmp image one_block
  $ cp journal image
  $ zscli serve image < events
  idle
  $ cmp image one_block

`format` replaces a journal only with `--force`.

  $ cp journal image
  $ zscli format image --block 512 --zones 4 --size 8 --capacity 6 --open 2 --active 3
  image: it has bytes that are no image; `--force` replaces it
  cannot write image
  [1]
  $ cmp image journal
  $ zscli format image --block 512 --zones 4 --size 8 --capacity 6 --open 2 --active 3 --force
  $ zscli zones image | sed -n 1p
  0 empty 0

A journal whose device has a program is read, and not replaced, since no image keeps programs. What a refusal
prints to standard output would be marked.

  $ printf 'mov r0, 0\nexit\n' > text
  $ zscli asm text program
  $ zscli entry load --slot 0 --program program --emit 0 --cid 3 > load
  $ serve < load
  cpl 1 00000000000000000000010003000000
  $ cp image with_program
  $ zscli zones image
  0 empty 0
  1 empty 0
  2 empty 0
  3 empty 0
  $ refused exec image events
  image: its device has a program or a run, which no image keeps; `serve --durable` keeps them
  device refused
  [3]
  $ refused upgrade image
  image: its device has a program or a run, which no image keeps; `serve --durable` keeps them
  device refused
  [3]
  $ refused serve image < events
  image: its device has a program or a run, which no image keeps; `serve --durable` keeps them
  device refused
  [3]
  $ refused serve image --frames < asked
  image: its device has a program or a run, which no image keeps; `serve --durable` keeps them
  device refused
  [3]
  $ cmp image with_program

`fold` keeps the program.

  $ zscli fold image
  $ refused exec image events
  image: its device has a program or a run, which no image keeps; `serve --durable` keeps them
  device refused
  [3]
  $ zscli entry result --slot 0 > result
  $ serve < result
  cpl 1 00000000000000000000010001000000 00x1024

A journal with an open gate and no whole batch after it, which no crash leaves, is refused, and left alone.

  $ { head -c 8192 with_program | head -c 4096; printf '\1'; head -c 4095 /dev/zero; } > damaged
  $ head -c 4096 /dev/zero | tr '\0' '\2' >> damaged
  $ cp damaged image
  $ refused zones image
  image: damaged at byte 4096: batches up to number 0 are whole, 0 after it are readable; `zscli fold IMAGE --salvage TO` saves the whole ones
  journal refused 4096
  [3]
  $ refused exec image events
  image: damaged at byte 4096: batches up to number 0 are whole, 0 after it are readable; `zscli fold IMAGE --salvage TO` saves the whole ones
  journal refused 4096
  [3]
  $ refused upgrade image
  image: damaged at byte 4096: batches up to number 0 are whole, 0 after it are readable; `zscli fold IMAGE --salvage TO` saves the whole ones
  journal refused 4096
  [3]
  $ refused serve image < events
  image: damaged at byte 4096: batches up to number 0 are whole, 0 after it are readable; `zscli fold IMAGE --salvage TO` saves the whole ones
  journal refused 4096
  [3]
  $ cmp image damaged

What a crash can leave after a gate that is closed doesn't count.

  $ { head -c 4096 journal; head -c 4096 /dev/zero; tail -c +8193 journal; } > image
  $ zscli zones image | sed -n 1p
  0 empty 0

A file that begins as a journal, and has no base, has its fault at the front.

  $ for it in 1 2 3 4 5 6 7 8; do printf ZNSJRN01; done > no_base
  $ cp no_base image
  $ refused zones image
  image, byte 0: no whole base of a device
  journal refused 0
  [3]
  $ refused exec image events
  image, byte 0: no whole base of a device
  journal refused 0
  [3]
  $ cmp image no_base

One that another version of the device made, or one with another profile, is refused by name.

  $ { printf 'ZNSJRN01\2\2'; tail -c +11 journal; } > version_2
  $ cp version_2 image
  $ refused zones image
  image, byte 0: made by version 2 of the device (profile 2); open it with that
  journal refused 0
  [3]
  $ refused report image
  image, byte 0: made by version 2 of the device (profile 2); open it with that
  journal refused 0
  [3]
  $ refused entries words --image image
  image, byte 0: made by version 2 of the device (profile 2); open it with that
  journal refused 0
  [3]
  $ refused exec image events
  image, byte 0: made by version 2 of the device (profile 2); open it with that
  journal refused 0
  [3]
  $ refused upgrade image
  image, byte 0: made by version 2 of the device (profile 2); open it with that
  journal refused 0
  [3]
  $ refused serve image < events
  image, byte 0: made by version 2 of the device (profile 2); open it with that
  journal refused 0
  [3]
  $ cmp image version_2

A journal without a base has its fault there too if it is cut within its first bytes; a file that is cut and begins otherwise is an image.

  $ head -c 40 journal > image
  $ refused zones image
  image, byte 0: no whole base of a device
  journal refused 0
  [3]
  $ refused exec image events
  image, byte 0: no whole base of a device
  journal refused 0
  [3]
  $ refused upgrade image
  image, byte 0: no whole base of a device
  journal refused 0
  [3]
  $ head -c 8 journal > image
  $ refused report image
  image, byte 0: no whole base of a device
  journal refused 0
  [3]
  $ head -c 7 journal > image
  $ refused zones image
  image: the file is no whole image: its header, a zone row or a block is cut
  image refused 10
  [3]
  $ head -c 100 one_block > image
  $ refused zones image
  image: the file is no whole image: its header, a zone row or a block is cut
  image refused 10
  [3]
  $ refused exec image events
  image: the file is no whole image: its header, a zone row or a block is cut
  image refused 10
  [3]
