Of a damaged journal it is said how many of its batches can be read, and `fold --salvage` makes a new file of those that are whole.

  $ zscli format image --block 512 --zones 4 --size 8 --capacity 6 --open 2 --active 3
  $ cp image plain

Four batches: each makes a zone read only. The base has a sector, a batch two, and the closed gate one.

  $ for zone in 0 1 2 3; do echo "fault $zone readonly" | zscli serve image --durable; done
  done
  done
  done
  done
  $ wc -c < image
  40960
  $ change() { dd of="$1" bs=1 seek="$2" conv=notrunc 2> /dev/null; }

A byte of the third batch's event changes. All that open the file say the same, and leave it. The last line is for scripts.

  $ cp image damaged
  $ printf '\377' | change damaged 24610
  $ cp damaged kept
  $ zscli zones damaged
  damaged: damaged at byte 20480: batches up to number 2 are whole, 1 after it are readable; `zscli fold IMAGE --salvage TO` saves the whole ones
  journal refused 20480
  [3]
  $ echo 'turn 0' > lines
  $ zscli exec damaged lines
  damaged: damaged at byte 20480: batches up to number 2 are whole, 1 after it are readable; `zscli fold IMAGE --salvage TO` saves the whole ones
  journal refused 20480
  [3]
  $ zscli serve damaged --durable < lines
  damaged: damaged at byte 20480: batches up to number 2 are whole, 1 after it are readable; `zscli fold IMAGE --salvage TO` saves the whole ones
  journal refused 20480
  [3]
  $ zscli fold damaged
  damaged: damaged at byte 20480: batches up to number 2 are whole, 1 after it are readable; `zscli fold IMAGE --salvage TO` saves the whole ones
  journal refused 20480
  [3]

The new file has the device after the two batches before it, and no journal. The damaged file stays as it is.

  $ zscli fold damaged --salvage saved
  batches up to number 2 are whole, up to byte 20480; 1 after it are left out
  $ cmp damaged kept
  $ zscli zones saved
  0 readonly 0
  1 readonly 0
  2 empty 0
  3 empty 0
  $ wc -c < saved
  8192
  $ echo 'fault 3 readonly' | zscli serve saved --durable
  done
  $ zscli zones saved | tail -n 1
  3 readonly 0

A file that has bytes isn't replaced, nor is the journal itself, by its name or by a link.

  $ cp saved before
  $ zscli fold damaged --salvage saved
  saved: it has bytes already, and isn't replaced
  cannot write saved
  [1]
  $ cmp saved before
  $ zscli fold damaged --salvage damaged
  damaged: it has bytes already, and isn't replaced
  cannot write damaged
  [1]
  $ ln -s damaged link
  $ zscli fold damaged --salvage link
  link: it has bytes already, and isn't replaced
  cannot write link
  [1]
  $ zscli fold damaged --salvage gone/new
  batches up to number 2 are whole, up to byte 20480; 1 after it are left out
  gone/new: no such file or folder
  cannot write gone/new
  [1]
  $ cmp damaged kept

A journal or a name that another command holds isn't taken.

  $ (flock 9; zscli fold damaged --salvage new) 9< damaged
  damaged: in use by another command
  cannot write damaged
  [1]
  $ : > empty
  $ (flock 9; zscli fold damaged --salvage empty) 9< empty
  empty: in use by another command
  cannot write empty
  [1]
  $ ls new
  ls: cannot access 'new': No such file or directory
  [2]

Where standard output takes no line, no file is made.

  $ zscli fold damaged --salvage new > /dev/full
  -: no room is left
  cannot write -
  [1]
  $ ls new
  ls: cannot access 'new': No such file or directory
  [2]

A journal that isn't damaged is saved too. Where the disk lost a gate, so that a closed one follows the second batch, the journal ends
there, as after a crash: what stands whole after that is counted.

  $ zscli fold image --salvage all
  batches up to number 4 are whole, up to byte 36864; 0 after it are left out
  $ zscli zones all | tail -n 1
  3 readonly 0
  $ cp image gap
  $ head -c 4096 /dev/zero | change gap 20480
  $ zscli zones gap | tail -n 2
  2 empty 0
  3 empty 0
  $ zscli fold gap --salvage more
  batches up to number 2 are whole, up to byte 20480; 1 after it are left out

An empty file is taken for one that isn't there.

  $ zscli fold damaged --salvage empty
  batches up to number 2 are whole, up to byte 20480; 1 after it are left out
  $ cmp empty more

A file without a base has nothing to be saved, and is refused; so are one of another version, one with an event that isn't done again, and
one that isn't there.

  $ zscli fold plain --salvage new
  plain, byte 0: no whole base of a device
  journal refused 0
  [3]
  $ cp image other
  $ printf '\2' | change other 9
  $ zscli fold other --salvage new
  other, byte 0: made by version 2 of the device (profile 2); open it with that
  journal refused 0
  [3]
  $ { head -c 28672 image; head -c 4096 /dev/zero; } > undone
  $ printf '\1' | change undone 16384
  $ zscli fold undone --salvage new
  undone, byte 16384: an event that changes nothing when it is done again
  journal refused 16384
  [3]
  $ zscli fold none --salvage new
  none: no such file or folder
  cannot read none
  [1]
  $ ls new
  ls: cannot access 'new': No such file or directory
  [2]
