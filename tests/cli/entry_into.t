With `--into` a line is added to the end of a command file, and nothing is printed. Its identifiers count up by themselves for
each queue. After 65535 the lowest is taken that the queue's submissions in the file don't have. The file's last line gets its
end first, where it has none.

  $ zscli format image --block 512 --zones 4 --size 8 --capacity 6 --open 2 --active 3
  $ printf 'turn 0 ; no line end' > events
  $ zscli entry open --lba 0 --into events
  $ zscli entry close --lba 0 --into events
  $ zscli entry open --lba 0 --into events --cid 9
  $ zscli entry reset --lba 0 --queue 2 --into events
  $ zscli entry close --lba 0 --into events
  $ zscli entry open --lba 0 --cid 65535 --into events
  $ zscli entry close --lba 0 --into events
  $ zscli entry open --lba 0 --into events
  $ head -n 1 events
  turn 0 ; no line end
  $ wc -l < events
  9
  $ zscli exec image events > replies
  $ cat replies
  idle
  cpl 1 00000000000000000000010001000000
  cpl 1 00000000000000000000010002000000
  cpl 1 00000000000000000000010009000000
  cpl 2 00000000000000000000020001000000
  cpl 1 0000000000000000000001000a007e03
  cpl 1 000000000000000000000100ffff0000
  cpl 1 00000000000000000000010000000000
  cpl 1 00000000000000000000010003000000
  $ zscli explain replies --commands events
  idle: a turn for a run that is not active
  queue 1, command 1: open of the zone of LBA 0: done
  queue 1, command 2: close of the zone of LBA 0: done
  queue 1, command 9: open of the zone of LBA 0: done
  queue 2, command 1: reset of the zone of LBA 0: done
  queue 1, command 10: close of the zone of LBA 0: refused: Invalid Zone State Transition (type 1h, code BFh): the zone's state does not allow the action
  queue 1, command 65535: open of the zone of LBA 0: done
  queue 1, command 0: close of the zone of LBA 0: done
  queue 1, command 3: open of the zone of LBA 0: done

A command file that isn't there is begun.

  $ zscli entry result --slot 0 --into made
  $ cat made
  submit 1 c2000100010000000000000000000000000000000000000000000000000000000000000000000000000000000000000000000000000000000000000000000000

One with a refused line stays as it is.

  $ printf 'turn 0\nturn 256\n' > bad
  $ zscli entry result --slot 0 --into bad > out
  bad, line 2: "256": no run; a number from 0 to 255 is expected
  line 2 refused
  [3]
  $ cat out
  $ cat bad
  turn 0
  turn 256

One in a folder that isn't there can't be begun.

  $ zscli entry result --slot 0 --into gone/made
  gone/made: no such file or folder
  cannot write gone/made
  [1]
  $ ls
  bad
  events
  image
  made
  out
  replies

A file keeps its permissions, and a link is followed.

  $ chmod 640 made
  $ ln -s made link
  $ zscli entry result --slot 0 --into link
  $ wc -l < made
  2
  $ stat -c '%a %F' made link
  640 regular file
  777 symbolic link

A folder is refused.

  $ mkdir folder
  $ zscli entry result --slot 0 --into folder
  folder: it is a folder
  cannot read folder
  [1]
