Calls of the system that fail at a chosen place. `failing NAME=NUMBER` runs a command with a library loaded before the C library:
standard output takes OUTPUT writes, no file grows over ROOM bytes, of a file READS bytes can be read.

  $ failing() {
  >   bound=$1
  >   shift
  >   env LD_PRELOAD="$CALLS" "FAILING_$bound" "$@"
  > }
  $ format() {
  >   zscli format "$@" --block 512 --zones 4 --size 8 --capacity 6 --open 2 --active 3
  > }

An image with three blocks in zone 0, which is Closed, and with zone 1 open. A run of three turns fills a block of zone 1 at each.

  $ format three
  $ head -c 1536 /dev/zero > data
  $ zscli entry append --lba 0 --data data --block 512 > events
  $ zscli entry close --lba 0 >> events
  $ zscli entry open --lba 8 >> events
  $ zscli exec three events > out
  $ printf 'mov r1, r2\nmov r2, 510\ncall 1\nmov r0, 0\nexit\n' > text
  $ zscli asm text copying
  $ zscli entry load --slot 0 --program copying --emit 512 --cid 1 > events
  $ zscli entry run --slot 0 --from 0 --blocks 3 --to 8 --cid 2 >> events

The Load and the Run are answered by a line each, and then the turns are given. The turn is done whose line isn't printed, and none
after it.

  $ for outputs in 0 2 3; do
  >   cp three image
  >   failing OUTPUT=$outputs zscli exec image events
  >   zscli zones image
  > done
  cannot write -
  0 closed 3
  1 explicit 0
  2 empty 0
  3 empty 0
  cpl 1 00000000000000000000010001000000
  pending 0
  cannot write -
  0 closed 3
  1 explicit 0
  2 empty 0
  3 empty 0
  cpl 1 00000000000000000000010001000000
  pending 0
  pending 0
  cannot write -
  0 closed 3
  1 explicit 1
  2 empty 0
  3 empty 0
  $ cp three image
  $ failing OUTPUT=4 zscli exec image events > out
  cannot write -
  [1]
  $ zscli zones image
  0 closed 3
  1 explicit 3
  2 empty 0
  3 empty 0
  $ cp three image
  $ failing OUTPUT=5 zscli exec image events > out
  $ zscli zones image
  0 closed 3
  1 explicit 3
  2 empty 0
  3 empty 0

A failing output is said before refused commands are. A report is printed at once, or not at all.

  $ format image
  $ echo 'turn 0' > events
  $ zscli entry read --lba 64 --blocks 1 >> events
  $ failing OUTPUT=1 zscli exec image events --fail
  idle
  cannot write -
  [1]
  $ failing OUTPUT=2 zscli exec image events --fail > out
  events, line 2: the first command that was refused
  commands refused 1
  [4]
  $ failing OUTPUT=0 zscli report image > out
  cannot write -
  [1]
  $ failing OUTPUT=1 zscli report image > out

An image that can't be read to its end stays as it was.

  $ format image
  $ echo 'fault 0 offline' > events
  $ failing READS=40 zscli exec image events
  cannot read image
  [1]
  $ failing READS=40 zscli zones image
  cannot read image
  [1]
  $ zscli zones image
  0 empty 0
  1 empty 0
  2 empty 0
  3 empty 0

Where a block can't be read, no event happens. What prints zones reads no block.

  $ failing READS=96 zscli exec three events
  cannot read three
  [1]
  $ failing READS=96 zscli zones three
  0 closed 3
  1 explicit 0
  2 empty 0
  3 empty 0
  $ failing READS=96 zscli report three --json | cut -c 1-32
  {"block_bytes":512,"zone_count":
  $ failing READS=96 zscli report three --map
  block 512 bytes, 4 zones of 8 blocks, capacity 6 blocks, open 1 of 2, active 2 of 3
     0 c ################................ 3/6
     1 o ................................ 0/6
     2 e ................................ 0/6
     3 e ................................ 0/6
  $ failing READS=95 zscli report three
  cannot read three
  [1]

Where a new image has no room, the old one stays, also where standard output fails first. Nothing is left beside it.

  $ failing ROOM=80 zscli exec image events
  done
  image: no room is left
  cannot write image
  [1]
  $ failing ROOM=80 env FAILING_OUTPUT=0 zscli exec image events
  image: no room is left
  cannot write image
  [1]
  $ failing ROOM=90 zscli serve image < events
  done
  image: no room is left
  cannot write image
  [1]
  $ printf '\003\002\0\0\003\0\0\0\0\0\0\0\0\0\0\0' > frames
  $ failing ROOM=90 zscli serve image --frames < frames > out
  image: no room is left
  cannot write image
  [1]
  $ zscli zones image
  0 empty 0
  1 empty 0
  2 empty 0
  3 empty 0

So does a program or a command file. A pipe, a device, or a file whose folder takes no new one is written where it stands.

  $ zscli disasm copying > listing
  $ failing ROOM=15 zscli asm listing made
  made: no room is left
  cannot write made
  [1]
  $ ls made*
  ls: cannot access 'made*': No such file or directory
  [2]
  $ cp copying made
  $ failing ROOM=15 zscli asm listing made
  made: no room is left
  cannot write made
  [1]
  $ cmp copying made
  $ echo 'turn 0' > work
  $ failing ROOM=15 zscli entry result --slot 0 --into work
  work: no room is left
  cannot write work
  [1]
  $ cat work
  turn 0
  $ ls made* work*
  made
  work
  $ zscli asm listing /dev/stdout | cmp - copying
  $ zscli asm listing /dev/stdout > there
  $ cmp there copying
  $ zscli asm listing /dev/null
  $ zscli asm listing /dev/fd/1 > there
  $ cmp there copying
  $ ls -d *.unfinished*
  ls: cannot access '*.unfinished*': No such file or directory
  [2]

A journal whose new file can't be written, or brought to the disk, stays in use: `serve --durable` goes on with it, and folds it when it
has grown by 64 MiB more.

  $ zscli format journal --block 512 --zones 2 --size 256 --capacity 256 --open 2 --active 2
  $ head -c 131072 /dev/zero > data
  $ { zscli entry reset --lba 0; zscli entry append --lba 0 --data data; } > round
  $ python3 "$TESTDIR/frames.py" make < round > once
  $ for it in $(seq 16); do cat once; done > often
  $ for it in $(seq 35); do cat often; done > many
  $ zscli serve journal --frames --durable < once > out
  $ cp journal before
  $ failing NEW=100 zscli fold journal
  journal: no new file can be written beside it, as where no room is left
  cannot write journal
  [1]
  $ failing SYNC=1 zscli fold journal
  journal: no new file can be written beside it, as where no room is left
  cannot write journal
  [1]
  $ cmp journal before
  $ failing NEW=100 zscli serve journal --frames --durable < many > out
  $ [ $(wc -c < journal) -gt 73400320 ]
  $ failing SYNC=1 zscli serve journal --frames --durable < many > out
  $ [ $(wc -c < journal) -gt 146800640 ]
  $ zscli serve journal --frames --durable < once > out
  $ [ $(wc -c < journal) -gt 146800640 ]
  $ zscli serve journal --frames --durable < many > out
  $ [ $(wc -c < journal) -lt 16777216 ]
  $ ls journal*
  journal
  $ rm journal before data many often

Where no event changes anything the image isn't written, and needs no room.

  $ printf 'fault 4 offline\nturn 0' > events
  $ failing ROOM=0 zscli exec image events
  refused
  idle
  $ ls image*
  image

An image of 256 MiB of blocks, where the system gives the program less.

  $ (ulimit -v 200000; zscli format large --block 4096 --zones 4 --size 16384 --capacity 16384 --open 4 --active 4)
  no memory
  [1]
  $ ls large*
  ls: cannot access 'large*': No such file or directory
  [2]
