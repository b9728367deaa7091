`serve --durable` keeps what it answers in a journal, which `fold` makes short again. Frames are made from words, and shown in
words, by frames.py.

  $ frames() { python3 "$TESTDIR/frames.py" "$1"; }
  $ fresh() { rm -rf image*; zscli format image --block 512 --zones 4 --size 8 --capacity 6 --open 2 --active 3; }
  $ serve() { frames make > asked; zscli serve image --durable --frames < asked > answered; }
  $ answers() { frames show < answered; }

The parts of a journal (docs/durability.md): the base of the empty image, of 96 bytes, labelled with version 1 and profile 2; a
batch, which is an open gate, a seal and events; a closed gate.

  $ zeros() { head -c "$1" /dev/zero; }
  $ nothing() { for it in $(seq "$1"); do printf '\1\0\0\0\0\0\0\0\0'; done; }
  $ label() { printf '\2\1\0\0\0\0\0\0\0\2\0\0\0\0\0\0\0'; }
  $ base() { printf ZNSJRN01; label; printf '\1\140\0\0\0\0\0\0\0'; cat empty; nothing 16; zeros 3822; }
  $ gate() { zeros 4096 | tr '\0' '\1'; }
  $ sealed() { python3 "$TESTDIR/journal.py" "$1"; }
  $ fresh
  $ mv image empty
  $ wc -c < empty
  96

An append of a block, whose frame has 592 bytes, is one event.

  $ head -c 512 /dev/zero | tr '\0' B > block
  $ zscli entry append --lba 0 --data block > append
  $ event() { printf '\1\120\2\0\0\0\0\0\0'; frames make < append; }
  $ { base; gate; event | sealed 4096; zeros 4096; } > journal
  $ wc -c < journal
  16384

The image becomes a journal. A Read, and a save, are answered, and aren't written to it.

  $ fresh
  $ serve < append
  $ answers
  cpl 1 00000000000000000000010001000000
  $ cmp image journal
  $ zscli entry read --lba 0 --blocks 1 --cid 2 > read
  $ { cat read; echo save; } | serve
  $ answers
  cpl 1 00000000000000000000010002000000 42x512
  saved
  $ cmp image journal

What comes before a byte that no request has is done and kept.

  $ fresh
  $ { cat append; echo bytes 09; } | serve
  standard input, byte 592: a kind of request, from 1 to 5 is expected
  stream refused 592 1
  [3]
  $ answers
  cpl 1 00000000000000000000010001000000
  $ cmp image journal

Where standard output takes no answer, the batch is done and kept.

  $ fresh
  $ frames make < append > asked
  $ zscli serve image --durable --frames < asked > /dev/full
  -: no room is left
  cannot write -
  [1]
  $ cmp image journal

Where the file can't grow, nothing is answered.

  $ fresh
  $ zscli serve image --durable --frames < /dev/null
  $ (trap '' XFSZ; ulimit -f 20; zscli serve image --durable --frames < asked; echo "status $?" >&2) | frames show
  cannot write image
  status 1
  $ zscli zones image
  0 empty 0
  1 empty 0
  2 empty 0
  3 empty 0

What was answered is there after the command is killed.

  $ fresh
  $ mkfifo to from
  $ zscli serve image --durable --frames < to > from &
  $ exec 3> to 4< from
  $ cat asked >&3
  $ head -c 32 <&4 | frames show
  cpl 1 00000000000000000000010001000000

Meanwhile no other command can save the image, and those that only read can see it.

  $ zscli upgrade image
  image: in use by another command
  cannot write image
  [1]
  $ zscli fold image
  image: in use by another command
  cannot write image
  [1]
  $ zscli zones image
  0 implicit 1
  1 empty 0
  2 empty 0
  3 empty 0
  $ kill -KILL $!
  $ wait $! 2> /dev/null
  [137]
  $ exec 3>&- 4<&-
  $ serve < read
  $ answers
  cpl 1 00000000000000000000010002000000 42x512

While a frame has begun that isn't whole, what was done before it waits for the disk with it, and so do the answers.

  $ fresh
  $ cat append append | frames make > twice
  $ zscli serve image --durable --frames < to > from 2> printed &
  $ exec 3> to 4< from
  $ head -c 900 twice >&3
  $ timeout 1 head -c 32 <&4 | wc -c
  0
  $ tail -c +901 twice >&3
  $ head -c 64 <&4 | frames show
  cpl 1 00000000000000000000010001000000
  cpl 1 01000000000000000000010001000000

Reads wait for no disk: they are answered at once, also where another frame has begun.

  $ cat read read | frames make > reads
  $ head -c 100 reads >&3
  $ head -c 544 <&4 | frames show
  cpl 1 00000000000000000000010002000000 42x512
  $ tail -c +101 reads >&3
  $ head -c 544 <&4 | frames show
  cpl 1 00000000000000000000010002000000 42x512

Where the input ends in the middle of a frame, what was done before it is on the disk and answered.

  $ head -c 900 twice >&3
  $ exec 3>&-
  $ frames show <&4
  cpl 1 02000000000000000000010001000000
  $ exec 4<&-
  $ wait $!
  [3]
  $ cat printed
  standard input, byte 2244: the end of the input; the rest of a frame is expected
  stream refused 2244 7
  $ zscli zones image
  0 implicit 3
  1 empty 0
  2 empty 0
  3 empty 0

A damaged journal, a file that is no image, and one that isn't there, are refused, and left alone.

  $ { base; gate; zeros 4096 | tr '\0' '\2'; } > damaged
  $ cp damaged image
  $ serve < append
  image: damaged at byte 4096: batches up to number 0 are whole, 0 after it are readable; `zscli fold IMAGE --salvage TO` saves the whole ones
  journal refused 4096
  [3]
  $ answers
  $ cmp image damaged
  $ { head -c 8700 journal; printf C; tail -c +8702 journal; } > changed
  $ cp changed image
  $ serve < append
  image: damaged at byte 4096: batches up to number 0 are whole, 0 after it are readable; `zscli fold IMAGE --salvage TO` saves the whole ones
  journal refused 4096
  [3]
  $ cmp image changed
  $ { printf 'ZNSJRN01\3'; tail -c +10 journal; } > no_base
  $ cp no_base image
  $ serve < append
  image, byte 0: no whole base of a device
  journal refused 0
  [3]
  $ cmp image no_base
  $ for it in 1 2 3 4 5 6 7 8; do printf ZNSIMG03; done > other
  $ cp other image
  $ serve < append
  image: the first 8 bytes are neither ZNSIMG01 nor ZNSIMG02
  image refused 11
  [3]
  $ answers
  $ cmp image other
  $ zscli serve none --durable --frames < asked
  none: no such file or folder
  cannot read none
  [1]
  $ ls none
  ls: cannot access 'none': No such file or directory
  [2]

A journal that another version of the device made, or one with another profile, is refused by name, and left alone.

  $ { printf 'ZNSJRN01\2\2'; tail -c +11 journal; } > version_2
  $ cp version_2 image
  $ serve < append
  image, byte 0: made by version 2 of the device (profile 2); open it with that
  journal refused 0
  [3]
  $ answers
  $ zscli fold image
  image, byte 0: made by version 2 of the device (profile 2); open it with that
  journal refused 0
  [3]
  $ cmp image version_2
  $ { head -c 17 journal; printf '\3'; tail -c +19 journal; } > profile_3
  $ cp profile_3 image
  $ serve < append
  image, byte 0: made by version 1 of the device (profile 3); open it with that
  journal refused 0
  [3]
  $ cmp image profile_3

One without a label is of version 1, and goes on without; `fold` writes the label.

  $ bare() { printf 'ZNSJRN01\1\140\0\0\0\0\0\0\0'; cat empty; nothing 16; zeros 3839; }
  $ { bare; gate; event; zeros 3495; zeros 4096; } > unlabelled
  $ cp unlabelled image
  $ serve < read
  $ answers
  cpl 1 00000000000000000000010002000000 42x512
  $ cmp image unlabelled
  $ zscli fold image
  $ { printf ZNSJRN01; label; } | cmp -n 25 - image

Only events that changed the device are in a journal. One that changes nothing when it is done again, as this Read, is refused with its
byte; so is one after others.

  $ idle() { printf '\1\120\0\0\0\0\0\0\0'; frames make < read; }
  $ { base; gate; idle | sealed 4096; zeros 4096; } > idle
  $ cp idle image
  $ serve < append
  image, byte 8213: an event that changes nothing when it is done again
  journal refused 8213
  [3]
  $ cmp image idle
  $ { event; idle; } > both
  $ { base; gate; sealed 4096 < both; zeros 4096; } > idle
  $ cp idle image
  $ serve < append
  image, byte 8814: an event that changes nothing when it is done again
  journal refused 8814
  [3]
  $ zscli zones image
  image, byte 8814: an event that changes nothing when it is done again
  journal refused 8814
  [3]
  $ zscli fold image
  image, byte 8814: an event that changes nothing when it is done again
  journal refused 8814
  [3]
  $ cmp image idle

A journal of an earlier version, whose gates are a 1 and zeros and whose batches have no seals, is opened, and goes on with sealed ones.

  $ earlier_gate() { printf '\1'; zeros 4095; }
  $ { base; earlier_gate; event; zeros 3495; } > earlier
  $ { cat earlier; zeros 4096; } > image
  $ serve < read
  $ answers
  cpl 1 00000000000000000000010002000000 42x512
  $ zscli entry append --lba 0 --data block --cid 3 > later
  $ serve < later
  $ answers
  cpl 1 01000000000000000000010003000000
  $ { cat earlier; gate; { printf '\1\120\2\0\0\0\0\0\0'; frames make < later; } | sealed 12288; zeros 4096; } | cmp - image

By lines the same event is answered by its line, and the journal is the same. A line that is rejected ends it: what came before it is kept.

  $ fresh
  $ zscli serve image --durable < append
  cpl 1 00000000000000000000010001000000
  $ cmp image journal
  $ zscli serve image --durable < read
  cpl 1 00000000000000000000010002000000 (?:42){512} (re)
  $ cmp image journal
  $ printf 'fault 3 readonly\nturn x\n' | zscli serve image --durable
  done
  -, line 2: "x": no run; a number from 0 to 255 is expected
  line 2 refused
  [3]
  $ zscli zones image
  0 implicit 1
  1 empty 0
  2 empty 0
  3 readonly 0

A device with two blocks and a program, which adds the first byte of a block to a sum in scratch, and emits the block's first 8 bytes.
A run over the second block ends, and one over both has had one of two turns, when a byte comes that no request has.

  $ fresh
  $ printf 'ldxb r4, [r2]\nldxdw r5, [r3]\nadd r5, r4\nstxdw [r3], r5\nmov r1, r2\nmov r2, 8\ncall 1\nmov r0, 0\nexit\n' > text
  $ zscli asm text program
  $ tr B A < block > block_of_a
  $ zscli entry append --lba 0 --data block_of_a > used
  $ cat append >> used
  $ zscli entry open --lba 8 --into used
  $ zscli entry load --slot 0 --program program --emit 10 --into used
  $ zscli entry run --slot 0 --from 1 --blocks 1 --to 8 --into used
  $ echo turn 0 >> used
  $ zscli entry run --slot 0 --from 0 --blocks 2 --to 8 --into used
  $ echo turn 0 >> used
  $ { cat used; echo bytes 09; } | serve
  standard input, byte 1608: a kind of request, from 1 to 5 is expected
  stream refused 1608 1
  [3]
  $ answers
  cpl 1 00000000000000000000010001000000
  cpl 1 01000000000000000000010001000000
  cpl 1 00000000000000000000010002000000
  cpl 1 00000000000000000000010003000000
  pending 0
  cpl 1 01000000010000000000010004000000
  pending 0
  pending 0

`fold` makes a base of that: the image, of 1632 bytes; the program, with its limit of 10 and the sum that the run left; the run with its
sum and the record that waits; and an end. A file that is folded stays as it is.

  $ zscli fold image
  $ od -A d -t x1 -N 34 image
  0000000 5a 4e 53 4a 52 4e 30 31 02 01 00 00 00 00 00 00
  0000016 00 02 00 00 00 00 00 00 00 01 60 06 00 00 00 00
  0000032 00 00
  0000034
  $ od -A d -t x1 -j 98 -N 32 image
  0000098 02 00 00 00 02 00 00 00 03 00 00 00 01 00 00 00
  0000114 01 00 00 00 00 00 00 00 01 00 00 00 00 00 00 00
  0000130
  $ entry() { printf '\300\0\5\0\1\0\0\0'; zeros 32; printf '\0\0\0\0\0\0\0\0\1\0\0\0\0\0\0\0\10\0\0\0\0\0\0\0'; }
  $ { printf ZNSJRN01; label; printf '\1\140\6\0\0\0\0\0\0'
  >   head -c 32 empty; printf '\3'; zeros 31
  >   printf '\2\0\0\0\2\0\0\0\3\0\0\0\1\0\0\0\1\0\0\0\0\0\0\0\1\0\0\0\0\0\0\0'
  >   cat block_of_a block; printf '\10\0BBBBBBBB'; zeros 502
  >   printf '\1\114\4\0\0\0\0\0\0\12\0\0\0B'; zeros 1023; cat program
  >   nothing 7
  >   printf '\1\130\4\0\0\0\0\0\0\1\0'; entry; printf '\1\0\0\0\1\0\0\0\0\0\0\0A'; zeros 1023; printf '\10\0AAAAAAAA'
  >   nothing 7
  >   zeros 74; zeros 4096; } > folded
  $ cmp image folded
  $ zscli fold image
  $ cmp image folded

The device goes on from there: the result of the first run, the turn that is left, the result of the second, and what it appended.

  $ zscli entry result --slot 0 --cid 6 > more
  $ echo turn 0 >> more
  $ zscli entry result --slot 0 --cid 7 >> more
  $ zscli entry read --lba 9 --blocks 1 --cid 2 >> more
  $ serve < more
  $ answers
  cpl 1 00000000000000000000010006000000 42 00x1023
  cpl 1 02000000010000000000010005000000
  cpl 1 00000000000000000000010007000000 83 00x1023
  cpl 1 00000000000000000000010002000000 0800414141414141414108004242424242424242 00x492

By lines, with the same program: the run over both blocks has one of its two turns by a line, and the other at the end of the input; the
next call finds its result. With `--drain` it has both after the line of the Run, and none is left for the turn that is asked for.

  $ fresh
  $ zscli serve image --durable < used > first
  $ tail -n 3 first
  pending 0
  pending 0
  cpl 1 02000000010000000000010005000000
  $ zscli entry result --slot 0 --cid 7 > asks
  $ zscli serve image --durable < asks | head -c 44
  cpl 1 00000000000000000000010007000000 83000 (no-eol)
  $ fresh
  $ zscli serve image --durable --drain < used > second
  $ tail -n 3 second
  pending 0
  cpl 1 02000000010000000000010005000000
  idle
  $ zscli serve image --durable --drain < asks | head -c 44
  cpl 1 00000000000000000000010007000000 83000 (no-eol)

An image that is no journal stays as it is, and a damaged journal is refused, and left alone.

  $ fresh
  $ zscli fold image
  $ cmp image empty
  $ cp damaged image
  $ zscli fold image
  image: damaged at byte 4096: batches up to number 0 are whole, 0 after it are readable; `zscli fold IMAGE --salvage TO` saves the whole ones
  journal refused 4096
  [3]
  $ cmp image damaged
