A pushdown, byte for byte: the example of docs/first_run.md, with the bytes of its program, and the same of lines as they come.

Four orders, each at the start of a block of 512 bytes: a name, a region in 4 bytes, and a text.

  $ order() { printf "order %02d\\$2\\0\\0\\0%-500s" "$1" "$3"; }
  $ { order 1 3 '2 lamps'; order 2 1 '1 desk'; order 3 3 '40 nails'; order 4 2 '5 cups'; } > orders.bin
  $ wc -c < orders.bin
  2048
  $ od -A d -t x1z -N 48 orders.bin
  0000000 6f 72 64 65 72 20 30 31 03 00 00 00 32 20 6c 61  >order 01....2 la<
  0000016 6d 70 73 20 20 20 20 20 20 20 20 20 20 20 20 20  >mps             <
  0000032 20 20 20 20 20 20 20 20 20 20 20 20 20 20 20 20  >                <
  0000048

What `make` makes of examples/filter.c: it emits 64 bytes of each block whose region is the run's argument.

  $ printf '\141\21\24\0\0\0\0\0\141\43\10\0\0\0\0\0\136\23\3\0\0\0\0\0\277\41\0\0\0\0\0\0' > filter.bin
  $ printf '\267\2\0\0\100\0\0\0\205\0\0\0\1\0\0\0\267\0\0\0\0\0\0\0\225\0\0\0\0\0\0\0' >> filter.bin
  $ zscli disasm filter.bin
  ldxw r1, [r1+20]
  ldxw r3, [r2+8]
  jnew r3, r1, +3
  mov r1, r2
  mov r2, 64
  call 1
  mov r0, 0
  exit
  $ zscli verify filter.bin --block 512 --emit 66 --explain
  accepted 8
  for a block at most 8 steps, and 66 bytes emitted

An image of 4 zones of 64 blocks, at most 3 of them open and active.

  $ zscli format zoned.img --block 512 --zones 4 --size 64 --capacity 64 --open 3 --active 3
  $ od -A d -t x1 zoned.img
  0000000 5a 4e 53 49 4d 47 30 32 00 02 00 00 04 00 00 00
  0000016 40 00 00 00 40 00 00 00 03 00 00 00 03 00 00 00
  0000032 00 00 00 00 00 00 00 00 00 00 00 00 00 00 00 00
  *
  0000064 01 00 00 00 00 00 00 00 01 00 00 00 00 00 00 00
  *
  0000096
  $ cp zoned.img empty.img

Queue 1 appends the orders, and runs the filter over them; between its turns queue 2 tries to reset the zone that the run reads.

  $ zscli entry append --lba 0 --data orders.bin --cid 1 > work.cmd
  $ zscli entry open --lba 64 --cid 2 >> work.cmd
  $ zscli entry load --slot 0 --program filter.bin --emit 66 --cid 3 >> work.cmd
  $ zscli entry run --slot 0 --from 0 --blocks 4 --to 64 --argument 3 --cid 4 >> work.cmd
  $ printf 'turn 0\nturn 0\n' >> work.cmd
  $ zscli entry reset --lba 0 --queue 2 --cid 1 >> work.cmd
  $ printf 'turn 0\nturn 0\n' >> work.cmd
  $ zscli entry read --lba 64 --blocks 1 --cid 5 >> work.cmd
  $ zscli exec zoned.img work.cmd > replies
  $ cut -d ' ' -f 1-3 replies
  cpl 1 00000000000000000000010001000000
  cpl 1 00000000000000000000010002000000
  cpl 1 00000000000000000000010003000000
  pending 0
  pending 0
  pending 0
  cpl 2 0000000000000000000002000100800f
  pending 0
  cpl 1 02000000010000000000010004000000
  cpl 1 00000000000000000000010005000000
  $ zscli zones zoned.img
  0 implicit 4
  1 explicit 1
  2 empty 0
  3 empty 0

The block that was read has the two records, each after its length, and zeros. It is the last of the image.

  $ { printf '\100\0order 01\3\0\0\0%-52s\100\0order 03\3\0\0\0%-52s' '2 lamps' '40 nails'; head -c 380 /dev/zero; } > wanted
  $ wc -c < wanted
  512
  $ tail -n 1 replies | cut -d ' ' -f 4 > read
  $ od -A n -v -t x1 wanted | tr -d ' \n' | sed 's/$/\n/' | cmp - read
  $ tail -c 512 zoned.img | cmp - wanted
  $ zscli unpack wanted --block 512
  6f726465722030310300000032206c616d7073202020202020202020202020202020202020202020202020202020202020202020202020202020202020202020
  6f72646572203033030000003430206e61696c732020202020202020202020202020202020202020202020202020202020202020202020202020202020202020

The replies in words.

  $ zscli explain replies --commands work.cmd
  queue 1, command 1: append of 4 blocks to the zone of LBA 0: the first is at LBA 0
  queue 1, command 2: open of the zone of LBA 64: done
  queue 1, command 3: load of 64 bytes into slot 0: done
  pending 0: run 0 was admitted, or had a turn, and has turns left
  pending 0: run 0 was admitted, or had a turn, and has turns left
  pending 0: run 0 was admitted, or had a turn, and has turns left
  queue 2, command 1: reset of the zone of LBA 0: refused: Zone Held (type 7h, code C0h; profile): an active run holds the zone against the command
  pending 0: run 0 was admitted, or had a turn, and has turns left
  queue 1, command 4: run of slot 0 over 4 blocks from LBA 0 on, to the zone of LBA 64: 2 records in 1 block
  queue 1, command 5: read of 1 block from LBA 64 on: 512 bytes

The same lines as they come print the same, and leave the same image.

  $ zscli serve empty.img < work.cmd > lines
  $ cmp lines replies
  $ cmp empty.img zoned.img
