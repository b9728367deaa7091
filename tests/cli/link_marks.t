`zscli link`: what a guard that ends a run writes into scratch, what is noted beside a program, and programs for a limit and for profile 3.
The C is tests/cli/data/guarded.c and marks.c.

  $ for name in guarded marks; do xxd -r -p "$ROOT/tests/cli/data/$name.hex" > $name.o; done
  $ link() { zscli link marks.o --block 512 -o program --function "$@"; }

The notes have what the program was linked for, and its guards: number, slot and place of each.

  $ zscli link guarded.o --block 512 -o record.bin --function record > lines
  $ python3 -c 'import zlib; print("sum", zlib.crc32(open("record.bin", "rb").read()))' > sum
  $ sed -n 2p record.bin.linked | cmp - sum
  $ sed 2d record.bin.linked
  linked 1
  block 512
  profile 2
  guard-at 1008
  guard 1 slot 5 guarded.c:20 in record: a record has no byte
  guard 2 slot 6 guarded.c:20 in record: a record has more than the 510 bytes of its area from its address on

A run over three blocks, of which the second has a record without a byte. The result ends with the mark at byte 1008: number 1, slot 5,
block 1.

  $ zscli format zoned.img --block 512 --zones 2 --size 8 --capacity 8 --open 2 --active 2
  $ for length in 3 0 2; do printf "\\$length\\0"; head -c 510 /dev/zero; done > blocks
  $ add() { zscli entry "$@" --into work.cmd; }
  $ add append --lba 0 --data blocks
  $ add open --lba 8
  $ add load --slot 0 --program record.bin --emit 512
  $ add run --slot 0 --from 0 --blocks 3 --to 8
  $ for turn in 1 2 3; do echo "turn 0"; done >> work.cmd
  $ add result --slot 0
  $ zscli exec zoned.img work.cmd > replies
  $ tail -n 1 replies | tail -c 33
  01000000050000000100000000000000
  $ zscli explain replies --commands work.cmd --program record.bin | tail -n 1
    block 1 ended at the guard of guarded.c:20 in record: a record has no byte

Where no guard ends the run, scratch is as the C leaves it.

  $ printf '\5' | dd of=blocks bs=1 seek=512 conv=notrunc status=none
  $ rm work.cmd zoned.img
  $ zscli format zoned.img --block 512 --zones 2 --size 8 --capacity 8 --open 2 --active 2
  $ add append --lba 0 --data blocks
  $ add open --lba 8
  $ add load --slot 0 --program record.bin --emit 512
  $ add run --slot 0 --from 0 --blocks 3 --to 8
  $ for turn in 1 2 3; do echo "turn 0"; done >> work.cmd
  $ add result --slot 0
  $ zscli exec zoned.img work.cmd | tail -n 1 | tail -c 33
  00000000000000000000000000000000

A guard writes where the program stores nothing. `--guard-at` names other bytes, of which the same is asked.

  $ link few > lines
  $ grep guard-at program.linked
  guard-at 1008
  $ link few --guard-at 512 > lines
  $ grep guard-at program.linked
  guard-at 512
  $ link few --guard-at 504
  link refused: guards can't write 16 bytes from byte 504 of scratch on, since the program may store there; name another multiple of 8 by --guard-at, or link with --silent-guards
  [3]
  $ link few --guard-at 516
  link refused: guards can't write from byte 516 of scratch on, which is no multiple of 8; name another by --guard-at, or link with --silent-guards
  [3]
  $ link few --guard-at 1016
  --guard-at: '1016' is not a number from 0 to 1008
  [2]

A program that may store into all of scratch has no bytes for it. With `--silent-guards` guards write nothing.

  $ link counts
  link refused: guards need 16 bytes of scratch, and the program may store into all of it; bound the offsets at which it stores, or link with --silent-guards
  [3]
  $ link counts --silent-guards --verbose
  guard: marks.c, line 13, in counts: a guard ends the run where 8 bytes aren't all within the 1024 of scratch; see to it just before, as by `if (offset > 1016) return 0;`
  15 slots; compares put in: 1 of accesses, 0 of emits, 0 of the block's size
  $ sed 2d program.linked
  linked 1
  block 512
  profile 2
  guard 1 slot 6 marks.c:13 in counts: 8 bytes aren't all within the 1024 of scratch

The limit of `--emit` is that of the program.

  $ link record --emit 66 --verbose
  guard: marks.c, line 30, in record: a guard ends the run where a record has more than 64 bytes, which the limit has left beside 2 for each record; see to it just before, as by `if (length > 64) return 0;`
  guard: marks.c, line 30, in record: a guard ends the run where 64 bytes aren't all within the 512 of the block; see to it just before, as by `if (offset > 448) return 0;`
  37 slots; compares put in: 0 of accesses, 2 of emits, 0 of the block's size
  $ zscli verify program --block 512 --emit 66
  accepted 37
  $ sed -n 4p program.linked
  emit 66
  $ link record --emit 513
  --emit gives 513 bytes, and a block has 512
  emit exceeds block
  [2]

Profile 3 knows the sum of the record's place and length, so no guard is needed.

  $ link record --profile 3 --strict --verbose
  12 slots; compares put in: 0 of accesses, 0 of emits, 0 of the block's size
  $ zscli verify program --block 512 --emit 258 --profile 3
  accepted 12
  $ sed -n 4p program.linked
  profile 3
  $ link record --profile 4
  --profile: '4' is not a number from 2 to 3
  [2]

Where the notes can't be written, a line says so, and the program is made.

  $ rm program program.linked
  $ mkdir program.linked
  $ link record --profile 3
  note: program.linked can't be written
  $ zscli verify program --block 512 --emit 258 --profile 3
  accepted 12
