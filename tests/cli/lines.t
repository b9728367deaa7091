`serve` does the lines of a command file as they come, and prints what answers each.

  $ fresh() { rm -rf image*; zscli format image --block 512 --zones 4 --size 8 --capacity 6 --open 2 --active 3; }
  $ zones() { zscli zones image | tr '\n' ','; echo; }
  $ serve() { zscli serve image "$@" < lines > printed; }

Each line's event is done, also where a line is longer than what is read at a time, and where the last has no end.

  $ fresh
  $ cp image empty
  $ { printf 'turn 0 ;'; head -c 300000 /dev/zero | tr '\0' x; } > lines
  $ printf '\r\n\n; nothing\n fault 3 readonly\nturn 7' >> lines
  $ serve
  $ cat printed
  idle
  done
  idle
  $ zones
  0 empty 0,1 empty 0,2 empty 0,3 readonly 0,
  $ od -A d -t x1 -j 64 image
  0000064 01 00 00 00 00 00 00 00 01 00 00 00 00 00 00 00
  0000080 01 00 00 00 00 00 00 00 0d 00 00 00 00 00 00 00
  0000096
  $ cmp -n 64 image empty

Where there is no line nothing is printed, and the image stays as it is.

  $ cp image one_fault
  $ : > lines
  $ serve
  $ cat printed
  $ cmp image one_fault

A line that is refused: the events of the lines before it are done, answered and saved, and those after it aren't.

  $ fresh
  $ printf 'turn 0\nfault 3 readonly\nturn x\nfault 2 readonly\n' > lines
  $ serve
  -, line 3: "x": no run; a number from 0 to 255 is expected
  line 3 refused
  [3]
  $ cat printed
  idle
  done
  $ cmp image one_fault
  $ printf 'turn 0\nturn' > lines
  $ serve
  -, line 2: "turn": turn is expected with a run alone
  line 2 refused
  [3]
  $ cat printed
  idle

Standard output takes no line: what has come is done, and saved.

  $ fresh
  $ printf 'fault 3 readonly\nfault 2 readonly\n' > lines
  $ zscli serve image < lines > /dev/full
  -: no room is left
  cannot write -
  [1]
  $ zones
  0 empty 0,1 empty 0,2 readonly 0,3 readonly 0,

Standard input that can't be read: the image stays as it is.

  $ cp one_fault image
  $ zscli serve image < .
  cannot read -
  [1]
  $ cmp image one_fault

An image that can't be saved: here no file may have a byte, and what is printed goes to a pipe.

  $ fresh
  $ printf 'fault 3 offline\n' > lines
  $ (trap '' XFSZ; ulimit -f 0; zscli serve image < lines; echo "status $?" >&2) | cat > printed
  image: too large for the file system, or for a limit of the user
  cannot write image
  status 1
  $ cat printed
  done
  $ ls image*
  image
  $ cmp image empty

Appends a block to zone 0, opens zone 1, loads a program that emits nothing, and starts a run of it over the block. The run has its
turn at the end of the input.

  $ head -c 512 /dev/zero | tr '\0' B > block
  $ printf 'mov r0, 0\nexit\n' > text
  $ zscli asm text program
  $ rm lines
  $ zscli entry append --lba 0 --data block --into lines
  $ zscli entry open --lba 8 --into lines
  $ zscli entry load --slot 0 --program program --emit 8 --into lines
  $ zscli entry run --slot 0 --from 0 --blocks 1 --to 8 --argument 0 --into lines
  $ fresh
  $ serve
  $ cat printed
  cpl 1 00000000000000000000010001000000
  cpl 1 00000000000000000000010002000000
  cpl 1 00000000000000000000010003000000
  pending 0
  cpl 1 00000000000000000000010004000000
  $ zones
  0 implicit 1,1 explicit 0,2 empty 0,3 empty 0,

It has its turn when a line asks for it.

  $ echo turn 0 >> lines
  $ fresh
  $ serve
  $ cat printed
  cpl 1 00000000000000000000010001000000
  cpl 1 00000000000000000000010002000000
  cpl 1 00000000000000000000010003000000
  pending 0
  cpl 1 00000000000000000000010004000000

With `--drain` it has its turn after the line of the Run. No run is left for the turn that is asked for.

  $ fresh
  $ serve --drain
  $ cat printed
  cpl 1 00000000000000000000010001000000
  cpl 1 00000000000000000000010002000000
  cpl 1 00000000000000000000010003000000
  pending 0
  cpl 1 00000000000000000000010004000000
  idle

`exec` prints the same of the same lines as a file, and leaves the same image.

  $ fresh
  $ serve
  $ mv image served
  $ fresh
  $ zscli exec image lines | diff - printed
  $ cmp image served

Over two pipes: a line is answered before the next one comes, and the image is saved at the end.

  $ fresh
  $ mkfifo to from
  $ zscli serve image < to > from &
  $ exec 3> to 4< from
  $ echo fault 3 readonly >&3
  $ head -n 1 <&4
  done
  $ cmp image empty
  $ echo turn 0 >&3
  $ head -n 1 <&4
  idle
  $ exec 3>&-
  $ wait $!
  $ exec 4<&-
  $ cmp image one_fault

Where the reader has left, what has come is done and saved, and nothing later is.

  $ fresh
  $ zscli serve image < to > from 2> said &
  $ exec 3> to 4< from
  $ echo turn 0 >&3
  $ head -n 1 <&4
  idle
  $ exec 4<&-
  $ printf 'fault 3 readonly\nfault 2 readonly\n' >&3
  $ wait $!
  [1]
  $ exec 3>&-
  $ cat said
  cannot write -
  $ zones
  0 empty 0,1 empty 0,2 readonly 0,3 readonly 0,

A signal ends it at once, and the image is as it was.

  $ fresh
  $ zscli serve image < to > from &
  $ exec 3> to 4< from
  $ echo fault 3 readonly >&3
  $ head -n 1 <&4
  done
  $ kill -KILL $!
  $ wait $! 2> /dev/null
  [137]
  $ exec 3>&- 4<&-
  $ cmp image empty

The lock ends with the command, however that ends.

  $ echo fault 3 readonly | zscli serve image
  done
  $ cmp image one_fault
