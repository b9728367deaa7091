What `zscli exec` prints of turns and faults. Each time the image is new.

  $ new() {
  >   zscli format image --block 512 --zones 4 --size 8 --capacity 6 --open 2 --active 3
  > }

A command file without events.

  $ new
  $ printf '' > events
  $ zscli exec image events

Turns of a run that isn't active; a `\r` before a line's end, a comment and a missing line end make no difference.

  $ printf 'turn 0\r\nturn 0 ; x' > events
  $ zscli exec image events
  idle
  idle

A fault of a zone is done, or refused: there is no zone 4.

  $ printf 'fault 0 readonly\nfault 4 offline' > events
  $ zscli exec image events
  done
  refused
  $ zscli zones image
  0 readonly 0
  1 empty 0
  2 empty 0
  3 empty 0

A zone that is offline stays so, and can't become read only.

  $ new
  $ printf 'fault 3 offline\nfault 3 offline\nfault 3 readonly' > events
  $ zscli exec image events
  done
  done
  refused
  $ zscli zones image
  0 empty 0
  1 empty 0
  2 empty 0
  3 offline 0

The events may come through a pipe.

  $ printf 'fault 0 offline\nturn 7\n' | zscli exec image /dev/stdin
  done
  idle

Of a file with a refused line no event happens. Standard error has the lowest, and standard output nothing.

  $ new
  $ cp image before
  $ printf '; x\n\nturn 0\nturn 256\nfault 0 lost\n' > events
  $ zscli exec image events > out
  events, line 4: "256": no run; a number from 0 to 255 is expected
  line 4 refused
  [3]
  $ cat out
  $ cmp image before
