Of a file with a wrong line `zscli entries` prints nothing. The lowest such line goes to standard error, with what is wrong with
its words, and the status is the one that `zscli entry` ends with for these words. Standard output is collected in `out`.

An option that isn't there, and a command that isn't.

  $ printf 'turn 0\nopen --lab 0\nfly' > words
  $ zscli entries words > out
  words, line 2: unexpected argument '--lab' found
  line 2 refused
  [2]
  $ printf 'turn 0\n\nfly' > words
  $ zscli entries words >> out
  words, line 3: unrecognized subcommand 'fly'
  line 3 refused
  [2]

A number out of its range, and an option that is missing.

  $ echo 'read --lba 0 --blocks 0' > words
  $ zscli entries words >> out
  words, line 1: --blocks: '0' is not a number from 1 to 65536
  line 1 refused
  [2]
  $ echo 'read --lba 0' > words
  $ zscli entries words >> out
  words, line 1: the following required arguments were not provided:
    --blocks <N>
  line 1 refused
  [2]

A file of data that isn't there, and one that is no whole blocks.

  $ echo 'append --lba 0 --data gone' > words
  $ zscli entries words >> out
  words, line 1: gone: no such file or folder
  cannot read gone
  line 1 refused
  [1]
  $ printf %4096s > data
  $ echo 'append --lba 8 --data data' > words
  $ zscli entries words --block 8192 >> out
  words, line 1: data: 4096 bytes; whole blocks of 8192 are expected
  data refused 3
  line 1 refused
  [3]

A turn of a run that there can't be, `--into`, and a byte that is no ASCII.

  $ printf 'open --lba 0\nturn 256' > words
  $ zscli entries words >> out
  words, line 2: "256": no run; a number from 0 to 255 is expected
  line 2 refused
  [2]
  $ echo 'open --lba 0 --into made' > words
  $ zscli entries words >> out
  words, line 1: a line of words has no --into
  line 1 refused
  [2]
  $ ls made
  ls: cannot access 'made': No such file or directory
  [2]
  $ printf 'open --lba 0\nopen --lba \377' > words
  $ zscli entries words >> out
  words, line 2: unrecognized subcommand '(no text)'
  line 2 refused
  [2]

A size that no block has, and files that can't be read.

  $ echo 'open --lba 0' > words
  $ zscli entries words --block 513 >> out
  a block of 513 bytes: the block size is no power of 2 from 512 to 16384
  geometry refused 1
  [3]
  $ zscli entries gone >> out
  gone: no such file or folder
  cannot read gone
  [1]
  $ mkdir folder
  $ zscli entries folder >> out
  folder: it is a folder
  cannot read folder
  [1]
  $ zscli entries words --image gone >> out
  gone: no such file or folder
  cannot read gone
  [1]
  $ zscli entries words --image words >> out
  words: the file is no whole image: its header, a zone row or a block is cut
  image refused 10
  [3]
  $ cat out

Standard output that takes nothing.

  $ zscli entries words > /dev/full
  -: no room is left
  cannot write -
  [1]
