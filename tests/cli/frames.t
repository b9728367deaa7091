`serve --frames` does requests as they come, and answers each. Frames are made from words, and shown in words, by frames.py.

  $ frames() { python3 "$TESTDIR/frames.py" "$1"; }
  $ fresh() { rm -rf image*; zscli format image --block 512 --zones 4 --size 8 --capacity 6 --open 2 --active 3; }
  $ serve() { frames make > asked; zscli serve image --frames "$@" < asked > answered; }
  $ answers() { frames show < answered; }

Each request is answered, and the image is saved when that is asked for.

  $ head -c 512 /dev/zero | tr '\0' B > block
  $ zscli entry append --lba 0 --data block > append
  $ fresh
  $ { cat append; echo save; } | serve
  $ answers
  cpl 1 00000000000000000000010001000000
  saved
  $ od -A d -t x1 image
  0000000 5a 4e 53 49 4d 47 30 32 00 02 00 00 04 00 00 00
  0000016 08 00 00 00 06 00 00 00 02 00 00 00 03 00 00 00
  0000032 01 00 00 00 00 00 00 00 00 00 00 00 00 00 00 00
  0000048 00 00 00 00 00 00 00 00 00 00 00 00 00 00 00 00
  0000064 02 00 00 00 01 00 00 00 01 00 00 00 00 00 00 00
  0000080 01 00 00 00 00 00 00 00 01 00 00 00 00 00 00 00
  0000096 42 42 42 42 42 42 42 42 42 42 42 42 42 42 42 42
  *
  0000608
  $ cp image one_block
  $ printf 'turn 0\ndrain 4294967295\nsave\n' | serve
  $ answers
  idle
  drained 0
  saved
  $ cmp image one_block

The bytes of the first of these answers.

  $ od -A d -t x1 -N 16 answered
  0000000 03 00 00 00 00 00 00 00 00 00 00 00 00 00 00 00
  0000016

Faults are answered, and data is read back.

  $ zscli entry read --lba 0 --blocks 1 --queue 7 --cid 9 > read
  $ { cat read; printf 'fault 3 readonly\nfault 4 offline\n'; } | serve
  $ answers
  cpl 7 00000000000000000000070009000000 42x512
  done
  refused
  $ zscli zones image
  0 implicit 1
  1 empty 0
  2 empty 0
  3 readonly 0

Where nothing is asked for there is no answer, and the image stays as it is.

  $ fresh
  $ cp image empty
  $ serve < /dev/null
  $ answers
  $ cmp image empty

A byte that no request has, and the end of the input within a frame: what comes before is done, answered and saved.

  $ { cat append; echo bytes 0900; } | serve
  standard input, byte 592: a kind of request, from 1 to 5 is expected
  stream refused 592 1
  [3]
  $ answers
  cpl 1 00000000000000000000010001000000
  $ cmp image one_block
  $ fresh
  $ { cat append; echo bytes 020100; } | serve
  standard input, byte 595: the end of the input; the rest of a frame is expected
  stream refused 595 7
  [3]
  $ answers
  cpl 1 00000000000000000000010001000000
  $ cmp image one_block
  $ echo bytes 0101 | serve
  standard input, byte 1: the run of a turn, or 1 or 2 of a fault, or else 0 is expected
  stream refused 1 2
  [3]

Each field of a header that is wrong is named.

  $ for it in 02000100 0200000001 050000000000000001 0100000000000000000003 02000000000000000000000001; do
  >     echo bytes $it | serve
  > done
  standard input, byte 2: the queue of a submission, or else 0 is expected
  stream refused 2 3
  standard input, byte 4: the zone of a fault or the turns of a drain, or else 0 is expected
  stream refused 4 4
  standard input, byte 8: the bytes of a submission's data, at most 131072, or else 0 is expected
  stream refused 8 5
  standard input, byte 10: the bytes of a submission's data, at most 131072, or else 0 is expected
  stream refused 10 5
  standard input, byte 12: 0 is expected
  stream refused 12 6
  [3]

Standard output takes no answer: the request is done, and saved.

  $ fresh
  $ { cat append; echo save; } | frames make > asked
  $ zscli serve image --frames < asked > /dev/full
  -: no room is left
  cannot write -
  [1]
  $ cmp image one_block

An image that can't be saved ends it: here no file may have a byte, and the answers go to a pipe.

  $ fresh
  $ { cat append; echo save; } | frames make > asked
  $ (trap '' XFSZ; ulimit -f 0; zscli serve image --frames < asked; echo "status $?" >&2) | frames show
  image: too large for the file system, or for a limit of the user
  cannot write image
  status 1
  cpl 1 00000000000000000000010001000000
  $ ls image*
  image
  $ cmp image empty

Without the trap the system ends the command in the midst of the new file, before what has come is answered. The old image is there, and
the next command that saves it removes the rest of the new one. A folder with that name is left alone.

  $ sh -c 'ulimit -f 0; zscli serve image --frames < asked; exit' 2> /dev/null | frames show
  $ ls image*
  image
  image.unfinished
  $ cmp image empty
  $ serve < append
  $ ls image*
  image
  $ cmp image one_block
  $ fresh
  $ mkdir image.unfinished
  $ serve < append
  $ ls -d image*
  image
  image.unfinished
  $ cmp image one_block

Appends a block to zone 0, opens zone 1, loads a program that emits nothing, and starts a run of it over the block.

  $ printf 'mov r0, 0\nexit\n' > text
  $ zscli asm text program
  $ cp append run
  $ zscli entry open --lba 8 --into run
  $ zscli entry load --slot 0 --program program --emit 0 --into run
  $ zscli entry run --slot 0 --from 0 --blocks 1 --to 8 --into run

The run has its turn when a drain asks for it.

  $ fresh
  $ { cat run; echo drain 4294967295; } | serve
  $ answers
  cpl 1 00000000000000000000010001000000
  cpl 1 00000000000000000000010002000000
  cpl 1 00000000000000000000010003000000
  pending 0
  cpl 1 00000000000000000000010004000000
  drained 1

With `--drain` it has its turn when no more input has come.

  $ fresh
  $ serve --drain < run
  $ answers
  cpl 1 00000000000000000000010001000000
  cpl 1 00000000000000000000010002000000
  cpl 1 00000000000000000000010003000000
  pending 0
  cpl 1 00000000000000000000010004000000

Without a drain it has its turn at the end of the input.

  $ fresh
  $ serve < run
  $ answers
  cpl 1 00000000000000000000010001000000
  cpl 1 00000000000000000000010002000000
  cpl 1 00000000000000000000010003000000
  pending 0
  cpl 1 00000000000000000000010004000000
  $ fresh
  $ { cat run; echo save; } | serve
  $ answers
  cpl 1 00000000000000000000010001000000
  cpl 1 00000000000000000000010002000000
  cpl 1 00000000000000000000010003000000
  pending 0
  saved
  cpl 1 00000000000000000000010004000000
  $ zscli zones image
  0 implicit 1
  1 explicit 0
  2 empty 0
  3 empty 0

Over two pipes: an answer comes before more is asked for, and the image changes on disk when a save asks for it.

  $ fresh
  $ mkfifo to from
  $ zscli serve image --frames < to > from &
  $ exec 3> to 4< from
  $ frames make < append >&3
  $ head -c 32 <&4 | frames show
  cpl 1 00000000000000000000010001000000
  $ cmp image empty
  $ echo save | frames make >&3
  $ head -c 16 <&4 | frames show
  saved
  $ cmp image one_block

Until it ends no other command can save the image; one that reads it can.

  $ zscli upgrade image
  image: in use by another command
  cannot write image
  [1]
  $ zscli zones image
  0 implicit 1
  1 empty 0
  2 empty 0
  3 empty 0
  $ exec 3>&-
  $ wait $!
  $ exec 4<&-
  $ zscli upgrade image
