Images and files that can't be read or written. `no_room` runs a command where the system lets no file grow.

  $ format() {
  >   zscli format "$@" --block 512 --zones 4 --size 8 --capacity 6 --open 2 --active 3
  > }
  $ no_room() { (trap '' XFSZ; ulimit -f 0; "$@"); }
  $ format new

Where standard output takes no line, `exec` stops at the first event, and saves what that left: zone 0 is lost, and no later one.

  $ format image
  $ printf 'fault 0 offline\nfault 1 offline\nfault 2 offline' > events
  $ zscli exec image events > /dev/full
  -: no room is left
  cannot write -
  [1]
  $ zscli zones image
  0 offline 0
  1 empty 0
  2 empty 0
  3 empty 0

Where it takes some lines, the events up to the first that isn't printed are done and saved. `with_room N` runs a command whose
output goes to a file that can grow by N bytes.

  $ with_room() {
  >   room=$1
  >   shift
  >   head -c $((512 - room)) /dev/zero > out
  >   (trap '' XFSZ; ulimit -f 1; "$@" >> out)
  > }
  $ format image
  $ with_room 5 zscli exec image events
  -: too large for the file system, or for a limit of the user
  cannot write -
  [1]
  $ tail -c +508 out
  done
  $ zscli zones image
  0 offline 0
  1 offline 0
  2 empty 0
  3 empty 0
  $ format image
  $ with_room 10 zscli exec image events
  -: too large for the file system, or for a limit of the user
  cannot write -
  [1]
  $ tail -c +503 out
  done
  done
  $ zscli zones image
  0 offline 0
  1 offline 0
  2 offline 0
  3 empty 0
  $ rm out

Where the new image can't be written, what was done is printed, and the image is as it was. Nothing is left beside it.

  $ format image
  $ printf 'fault 0 offline' > events
  $ no_room zscli exec image events
  done
  image: too large for the file system, or for a limit of the user
  cannot write image
  [1]
  $ cmp image new
  $ ls
  events
  image
  new

Where standard output takes no line either, the last line on standard error says that the image can't be written.

  $ no_room zscli exec image events > /dev/full
  image: too large for the file system, or for a limit of the user
  cannot write image
  [1]
  $ cmp image new

Where the events leave the image as it was, no file is written, and none is wanted. Standard output may still fail.

  $ printf 'fault 4 offline\nturn 0' > same
  $ no_room zscli exec image same
  refused
  idle
  $ no_room zscli exec image same > /dev/full
  -: no room is left
  cannot write -
  [1]
  $ with_room 8 zscli exec image same
  -: too large for the file system, or for a limit of the user
  cannot write -
  [1]
  $ tail -c +505 out
  refused
  $ rm out
  $ cmp image new

An image of version 1 is written all the same, as version 2.

  $ cp new old
  $ printf 1 | dd of=old bs=1 seek=7 conv=notrunc status=none
  $ cp old first
  $ printf '' > none
  $ no_room zscli exec old none
  old: too large for the file system, or for a limit of the user
  cannot write old
  [1]
  $ no_room zscli upgrade old
  old: too large for the file system, or for a limit of the user
  cannot write old
  [1]
  $ cmp old first

No image is made where it can't be written, and one of the same name stays.

  $ no_room format made
  made: too large for the file system, or for a limit of the user
  cannot write made
  [1]
  $ no_room format image
  image: too large for the file system, or for a limit of the user
  cannot write image
  [1]
  $ cmp image new
  $ ls
  events
  first
  image
  new
  none
  old
  same

What isn't there, and what is no file, can't be read. No event happens, and nothing is printed.

  $ mkdir folder
  $ zscli exec gone events > out
  gone: no such file or folder
  cannot read gone
  [1]
  $ zscli exec folder events >> out
  folder: not an ordinary file
  cannot write folder
  [1]
  $ zscli zones gone >> out
  gone: no such file or folder
  cannot read gone
  [1]
  $ zscli zones folder >> out
  cannot read folder
  [1]
  $ zscli exec image folder >> out
  folder: it is a folder
  cannot read folder
  [1]
  $ cat out
  $ cmp image new

One command at a time works on an image. Here the lock is held by `flock`.

  $ (flock 9; zscli exec image events; zscli upgrade image; format image) 9< image
  image: in use by another command
  cannot write image
  image: in use by another command
  cannot write image
  image: in use by another command
  cannot write image
  [1]
  $ cmp image new

One that only reads doesn't wait for it.

  $ (flock 9; zscli zones image) 9< image
  0 empty 0
  1 empty 0
  2 empty 0
  3 empty 0

A new image has the permissions of the old one. Through a link the file is changed, and the link stays.

  $ chmod 640 image
  $ ln -s image link
  $ zscli exec link events
  done
  $ zscli zones image
  0 offline 0
  1 empty 0
  2 empty 0
  3 empty 0
  $ stat -c '%a %F' image link
  640 regular file
  777 symbolic link

Before the first event `exec` sees whether a new image can be begun beside the old one: else nothing is done or printed. The name of this
one is so long that there is none for the new one.

  $ name=$(head -c 250 /dev/zero | tr '\0' i)
  $ cp new "$name"
  $ printf 'fault 0 offline' > events
  $ zscli exec "$name" events > said 2>&1
  [1]
  $ tr -s i < said
  cannot write i
  $ cmp "$name" new
