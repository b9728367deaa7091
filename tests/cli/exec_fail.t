`exec --fail` ends with status 4 where commands were refused. All is done all the same.

  $ zscli format image --block 512 --zones 4 --size 8 --capacity 6 --open 2 --active 3
  $ cp image empty
  $ printf '; none yet\n' > events
  $ zscli entry open --lba 0 >> events

Where none is refused the status is 0.

  $ zscli exec --fail image events
  cpl 1 00000000000000000000010001000000

Two reads of blocks that there aren't. The first that was refused is named, and how many were. `explain` says why.

  $ printf 'turn 0\n' >> events
  $ zscli entry read --lba 64 --blocks 1 --cid 2 >> events
  $ zscli entry read --lba 64 --blocks 1 --cid 3 >> events
  $ zscli exec --fail image events > replies
  events, line 4: the first command that was refused
  commands refused 2
  [4]
  $ cat replies
  cpl 1 00000000000000000000010001000000
  idle
  cpl 1 00000000000000000000010002000001
  cpl 1 00000000000000000000010003000001
  $ zscli explain replies --commands events | tail -n 1
  queue 1, command 3: read of 1 block from LBA 64 on: refused: LBA Out of Range (type 0h, code 80h): a block that the entry names is not in the namespace

Without `--fail` the status is 0, and nothing is printed to standard error.

  $ zscli exec image events
  cpl 1 00000000000000000000010001000000
  idle
  cpl 1 00000000000000000000010002000001
  cpl 1 00000000000000000000010003000001

What the other commands left is saved.

  $ zscli zones image
  0 explicit 0
  1 empty 0
  2 empty 0
  3 empty 0
  $ cp empty image
  $ zscli exec --fail image events 2> /dev/null > replies
  [4]
  $ zscli zones image
  0 explicit 0
  1 empty 0
  2 empty 0
  3 empty 0

Where a file fails, the status is 1.

  $ zscli exec --fail image gone
  gone: no such file or folder
  cannot read gone
  [1]
  $ zscli exec image events --fail > /dev/full
  -: no room is left
  cannot write -
  [1]

A run of a slot without a program is refused, and a fault of a zone that there isn't: the fault is no command, and isn't counted.

  $ zscli entry run --slot 0 --from 0 --blocks 1 --to 8 > events
  $ printf 'fault 4 offline\n' >> events
  $ zscli exec image events --fail
  cpl 1 0000000000000000000001000100820f
  refused
  events, line 1: the first command that was refused
  commands refused 1
  [4]
