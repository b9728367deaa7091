What `zscli explain` refuses: nothing goes to standard output, which is collected in `out`.

A file without lines is explained, by nothing.

  $ printf '' > replies
  $ zscli explain replies

A command file with a refused line, a file that isn't there, and no file.

  $ printf 'turn 0\nturn 256\n' > commands
  $ zscli explain replies --commands commands > out
  commands, line 2: "256": no run; a number from 0 to 255 is expected
  line 2 refused
  [3]
  $ zscli explain none >> out
  none: no such file or folder
  cannot read none
  [1]
  $ zscli explain replies --commands none >> out
  none: no such file or folder
  cannot read none
  [1]
  $ zscli explain >> out
  error: the following required arguments were not provided:
    <FILE>
  
  Usage: zscli explain <FILE>
  
  For more information, try '--help'.
  [2]

A line that `exec` doesn't print.

  $ printf 'idle\nturn 0\n' > replies
  $ zscli explain replies >> out
  replies, line 2: not one that `exec` prints
  line 2 refused
  [3]

The last place of a run, and one that there isn't.

  $ echo 'pending 7' > replies
  $ zscli explain replies
  pending 7: run 7 was admitted, or had a turn, and has turns left
  $ printf 'pending 7\npending 8\n' > replies
  $ zscli explain replies >> out
  replies, line 2: not one that `exec` prints
  line 2 refused
  [3]

A refusal has no data.

  $ echo 'cpl 1 00000000000000000000010003007203 00' > replies
  $ zscli explain replies >> out
  replies, line 1: not one that `exec` prints
  line 1 refused
  [3]
  $ cat out

A success may have data; with the phase tag it is another device's.

  $ echo 'cpl 1 00000000000000000000010003000100 00' > replies
  $ zscli explain replies
  queue 1: 16 bytes that are no completion of this device

Standard output that takes nothing.

  $ zscli explain replies > /dev/full
  -: no room is left
  cannot write -
  [1]
