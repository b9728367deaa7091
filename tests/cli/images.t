Images in files: made, listed, changed and upgraded.

  $ format() {
  >   zscli format "$@" --block 512 --zones 4 --size 8 --capacity 6 --open 2 --active 3
  > }
  $ put() {  # FILE OFFSET BYTES, these as printf has them
  >   printf "$3" | dd of="$1" bs=1 seek="$2" conv=notrunc status=none
  > }

`format` makes an image of empty zones: a header of 64 bytes, and a record of 8 bytes for each zone.

  $ format new
  $ xxd -c 16 new
  00000000: 5a4e 5349 4d47 3032 0002 0000 0400 0000  ZNSIMG02........
  00000010: 0800 0000 0600 0000 0200 0000 0300 0000  ................
  00000020: 0000 0000 0000 0000 0000 0000 0000 0000  ................
  00000030: 0000 0000 0000 0000 0000 0000 0000 0000  ................
  00000040: 0100 0000 0000 0000 0100 0000 0000 0000  ................
  00000050: 0100 0000 0000 0000 0100 0000 0000 0000  ................
  $ zscli zones new
  0 empty 0
  1 empty 0
  2 empty 0
  3 empty 0

Numbers may have zeros in front.

  $ zscli format again --block 0512 --zones 4 --size 008 --capacity 06 --open 2 --active 3
  $ cmp again new

A file that is no image is replaced only with `--force`; without, it stays as it is. An image, here of version 1, and a file of
no bytes are replaced without it.

  $ printf ZNSIMG0 > notes
  $ format notes > out
  notes: it has bytes that are no image; `--force` replaces it
  cannot write notes
  [1]
  $ cat out notes
  ZNSIMG0 (no-eol)
  $ format notes --force
  $ cmp notes new
  $ cp new old
  $ put old 7 1
  $ format old
  $ cmp old new
  $ printf '' > empty
  $ format empty
  $ cmp empty new

`exec` writes what the events leave. A block that is appended is in the image, whose header counts it in byte 32, and the zone's
record says that it was opened by a write and has one block.

  $ format image
  $ head -c 512 /dev/zero | tr '\0' '\245' > block
  $ zscli entry append --lba 8 --data block --cid 1 > events
  $ zscli exec image events
  cpl 1 08000000000000000000010001000000
  $ cmp -l new image
  cmp: EOF on new after byte 96
  33   0   1
  73   1   2
  77   0   1
  [1]
  $ tail -c +97 image | cmp - block
  $ zscli zones image
  0 empty 0
  1 implicit 1
  2 empty 0
  3 empty 0
  $ cp image written

The next call goes on from there: it reads the block, and appends another.

  $ zscli entry read --lba 8 --blocks 1 --cid 2 > events
  $ zscli entry append --lba 8 --data block --cid 3 >> events
  $ zscli exec image events > replies
  $ cut -c 1-36 replies
  cpl 1 000000000000000000000100020000
  cpl 1 090000000000000000000100030000
  $ printf 'cpl 1 00000000000000000000010002000000 %s\n' "$(xxd -p block | tr -d '\n')" > wanted
  $ printf 'cpl 1 09000000000000000000010003000000\n' >> wanted
  $ cmp replies wanted
  $ zscli zones image
  0 empty 0
  1 implicit 2
  2 empty 0
  3 empty 0

An image of version 1 has no count of written blocks. `exec` writes it as one of version 2, also where no event changes it.

  $ cp written old
  $ put old 7 1
  $ put old 32 '\0'
  $ cp old first
  $ zscli zones old
  0 empty 0
  1 implicit 1
  2 empty 0
  3 empty 0
  $ printf '' > none
  $ zscli exec old none
  $ cmp old written

So does `upgrade`, which leaves an image of version 2 as it is.

  $ cp first old
  $ zscli upgrade old
  $ cmp old written
  $ zscli upgrade old
  $ cmp old written

A header that counts another number of blocks than there are is refused, and the file stays as it is.

  $ put old 32 '\2'
  $ cp old wrong
  $ zscli upgrade old > out
  old: the header tells of 2 written blocks, the zone rows of 1
  image refused 18
  [3]
  $ cat out
  $ cmp old wrong

Where an event is refused as a line, or the command file isn't there, the image stays as it is.

  $ format image
  $ printf 'fault 0 offline\nturn 256' > events
  $ zscli exec image events > out
  events, line 2: "256": no run; a number from 0 to 255 is expected
  line 2 refused
  [3]
  $ zscli exec image missing >> out
  missing: no such file or folder
  cannot read missing
  [1]
  $ cat out
  $ cmp image new
