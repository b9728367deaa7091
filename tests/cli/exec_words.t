`exec --words` prints what `explain` does, as it happens.

  $ zscli format image --block 512 --zones 4 --size 8 --capacity 6 --open 2 --active 3
  $ cp image empty
  $ head -c 1024 /dev/zero | tr '\0' '\7' > blocks
  $ printf 'mov r1, r2\nmov r2, 4\ncall 1\nmov r0, 0\nexit\n' > text
  $ zscli asm text program
  $ cat > words <<END
  > append --lba 0 --data blocks
  > load --slot 0 --program program --emit 6
  > open --lba 8
  > run --slot 0 --from 0 --blocks 2 --to 8
  > turn 0
  > read --lba 64 --blocks 1
  > fault 3 offline
  > report --lba 0 --dwords 48
  > END
  $ zscli entries words > work.cmd
  $ zscli exec image work.cmd --words > told
  $ cat told
  queue 1, command 1: append of 2 blocks to the zone of LBA 0: the first is at LBA 0
  queue 1, command 2: load of 40 bytes into slot 0: done
  queue 1, command 3: open of the zone of LBA 8: done
  pending 0: run 0 was admitted, or had a turn, and has turns left
  pending 0: run 0 was admitted, or had a turn, and has turns left
  queue 1, command 5: read of 1 block from LBA 64 on: refused: LBA Out of Range (type 0h, code 80h): a block that the entry names is not in the namespace
  done: a zone has its fault
  queue 1, command 6: report of zones from that of LBA 0 on: 2 of 4 zones
    SLBA: 0x0  WP: 0x2  Cap: 0x6  State: 0x20 (Implicitly Opened)  Type: 0x2  Attrs: 0x0
    SLBA: 0x8  WP: 0x8  Cap: 0x6  State: 0x30 (Explicitly Opened)  Type: 0x2  Attrs: 0x0
  queue 1, command 4: run of slot 0 over 2 blocks from LBA 0 on, to the zone of LBA 8: 2 records in 1 block

The image is the one that `exec` saves without it, and the words are those of `explain`.

  $ mv image with_words
  $ cp empty image
  $ zscli exec image work.cmd > replies
  $ cmp image with_words
  $ zscli explain replies --commands work.cmd > explained
  $ cmp told explained

A line is printed as soon as its event is done: where no more can be written, later events aren't done.

  $ cp empty image
  $ FAILING_OUTPUT=1 LD_PRELOAD=$CALLS zscli exec image work.cmd --words
  queue 1, command 1: append of 2 blocks to the zone of LBA 0: the first is at LBA 0
  cannot write -
  [1]
  $ zscli zones image
  0 implicit 2
  1 empty 0
  2 empty 0
  3 empty 0

`--fail` counts as without words.

  $ cp empty image
  $ zscli exec image work.cmd --words --fail | tail -n 1
  work.cmd, line 6: the first command that was refused
  commands refused 1
  queue 1, command 4: run of slot 0 over 2 blocks from LBA 0 on, to the zone of LBA 8: 2 records in 1 block

`--stop` ends at the first refused command. No later event is done, no run goes on, what was done is saved, and nothing is counted but
this command.

  $ cp empty image
  $ zscli exec image work.cmd --stop
  cpl 1 00000000000000000000010001000000
  cpl 1 00000000000000000000010002000000
  cpl 1 00000000000000000000010003000000
  pending 0
  pending 0
  cpl 1 00000000000000000000010005000001
  work.cmd, line 6: the first command that was refused
  commands refused 1
  [4]
  $ zscli zones image
  0 implicit 2
  1 explicit 0
  2 empty 0
  3 empty 0
  $ cp empty image
  $ zscli exec image work.cmd --stop --words | tail -n 1
  work.cmd, line 6: the first command that was refused
  commands refused 1
  queue 1, command 5: read of 1 block from LBA 64 on: refused: LBA Out of Range (type 0h, code 80h): a block that the entry names is not in the namespace
  $ zscli zones image | sed -n 2p
  1 explicit 0

Where none is refused, all is done, and the runs have their turns.

  $ grep -v 'fault' words | sed '/--lba 64/d' > fine
  $ cp empty image
  $ zscli entries fine --image image > fine.cmd
  $ zscli exec image fine.cmd --stop > stopped
  $ mv image stopped_image
  $ cp empty image
  $ zscli exec image fine.cmd > replies
  $ cmp replies stopped
  $ cmp image stopped_image

A fault that is refused is no command.

  $ cp empty image
  $ printf 'fault 9 offline\nturn 0\n' > faults
  $ zscli exec image faults --stop
  refused
  idle
