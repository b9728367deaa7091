Where standard output of `exec` fails, the event or turn is done whose line isn't taken, and no later one.

Zone 0 is Closed and has three blocks; zone 1 is open. The program emits 510 bytes of each block, which fill an output block.

  $ zscli format empty --block 512 --zones 4 --size 8 --capacity 6 --open 2 --active 3
  $ for it in 1 2 3; do printf "\\$it"; head -c 511 /dev/zero; done > blocks
  $ zscli entry append --lba 0 --data blocks > before
  $ zscli entry close --lba 0 --cid 2 >> before
  $ zscli entry open --lba 8 --cid 3 >> before
  $ zscli exec empty before > /dev/null
  $ mv empty three_blocks
  $ printf 'mov r1, r2\nmov r2, 510\ncall 1\nmov r0, 0\nexit\n' > text
  $ zscli asm text copying
  $ zscli entry load --slot 0 --program copying --emit 512 --cid 1 > events
  $ zscli entry run --slot 0 --from 0 --blocks 3 --to 8 --cid 2 >> events
  $ zscli zones three_blocks
  0 closed 3
  1 explicit 0
  2 empty 0
  3 empty 0

The first line isn't taken: the Load is done, and no run is.

  $ cp three_blocks image
  $ zscli exec image events > /dev/full
  -: no room is left
  cannot write -
  [1]
  $ zscli zones image
  0 closed 3
  1 explicit 0
  2 empty 0
  3 empty 0

Each line is taken.

  $ cp three_blocks image
  $ zscli exec image events
  cpl 1 00000000000000000000010001000000
  pending 0
  pending 0
  pending 0
  cpl 1 03000000030000000000010002000000
  $ zscli zones image
  0 closed 3
  1 explicit 3
  2 empty 0
  3 empty 0

The same by `serve`. It gets each line when the one before is answered. Its reader leaves after so many answers. The next line is done,
whose answer isn't taken, and no later turn is given.

  $ cat events > lines
  $ printf 'turn 0\nturn 0\nturn 0\n' >> lines
  $ mkfifo to from
  $ leave_after() {
  >     cp three_blocks image
  >     zscli serve image < to > from &
  >     exec 3> to 4< from
  >     for line in $(seq $1); do
  >         sed -n ${line}p lines >&3
  >         head -n 1 <&4
  >     done
  >     exec 4<&-
  >     sed -n $(($1 + 1))p lines >&3
  >     exec 3>&-
  >     wait $!
  >     echo "status $?"
  >     zscli zones image | sed -n 2p
  > }
  $ leave_after 0
  cannot write -
  status 1
  1 explicit 0
  $ leave_after 1
  cpl 1 00000000000000000000010001000000
  cannot write -
  status 1
  1 explicit 0
  $ leave_after 2
  cpl 1 00000000000000000000010001000000
  pending 0
  cannot write -
  status 1
  1 explicit 0
  $ leave_after 3
  cpl 1 00000000000000000000010001000000
  pending 0
  pending 0
  cannot write -
  status 1
  1 explicit 1
  $ leave_after 4
  cpl 1 00000000000000000000010001000000
  pending 0
  pending 0
  pending 0
  cannot write -
  status 1
  1 explicit 3
