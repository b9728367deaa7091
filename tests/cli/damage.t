What is said of a journal whose bytes changed on the disk (docs/durability.md): the byte of a gate, how many batches are whole before it and
after it, and the file stays as it was. salvage.t has what can be saved.

  $ zeros() { head -c "$1" /dev/zero; }
  $ ones() { zeros "$1" | tr '\0' '\1'; }
  $ part() { tail -c +$(($1 + 1)) journal | head -c $(($2 - $1)); }
  $ with() { part 0 "$1"; printf "$2"; tail -c +$(($1 + 2)) journal; }
  $ said() { cp image before; zscli zones image 2>&1 | sed -n '1{s/; .zscli.*//;p};$p'; cmp image before; }

A journal of three batches of one Append each: a base, and gates at 4096, 12288 and 20480; the closed gate at 28672.

  $ zscli format journal --block 512 --zones 1 --size 8 --capacity 8 --open 1 --active 1
  $ zeros 512 > block
  $ zscli entry append --lba 0 --data block > append
  $ for it in 1 2 3; do python3 "$TESTDIR/frames.py" make < append | zscli serve journal --durable --frames > /dev/null; done
  $ wc -c < journal
  32768
  $ zscli zones journal
  0 implicit 3

A byte of a seal or of an event changes: the tag, the offset, the length of the events, the sum, the 1 before an event, its length, its
bytes, and the first 0 after it. The event is longer by one byte, or by as many as take the zeros in.

  $ damage() { with "$1" "$2" > image; said; }
  $ for it in 0 1 9 17 21 22 30 300 622; do damage $((16384 + it)) '\177'; done | sort | uniq -c | sed 's/^ *//'
  9 image: damaged at byte 12288: batches up to number 1 are whole, 1 after it are readable
  9 journal refused 12288
  $ for it in '\121' '\17' '\0'; do damage 16406 "$it"; done | sort -u
  image: damaged at byte 12288: batches up to number 1 are whole, 1 after it are readable
  journal refused 12288

Where all eight bits of a tag change, the seal is read as an event of an earlier version, which is none.

  $ damage 16384 '\1'
  image, byte 16384: an event that changes nothing when it is done again
  journal refused 16384

A batch stands where another was, or is missing, or was lost and is read as zeros.

  $ { part 0 12288; part 4096 12288; part 20480 32768; } > image
  $ said
  image: damaged at byte 12288: batches up to number 1 are whole, 1 after it are readable
  journal refused 12288
  $ { part 0 12288; part 20480 32768; } > image
  $ said
  image: damaged at byte 12288: batches up to number 1 are whole, 0 after it are readable
  journal refused 12288
  $ { part 0 16384; zeros 4096; part 20480 32768; } > image
  $ said
  image: damaged at byte 12288: batches up to number 1 are whole, 1 after it are readable
  journal refused 12288

Of an open gate one byte is left: the batch counts. All of it is 0: the journal ends there, as after a crash.

  $ { part 0 12288; zeros 4095; printf '\1'; part 16384 32768; } > image
  $ said
  0 implicit 3
  0 implicit 3
  $ { part 0 12288; zeros 4096; part 16384 32768; } > image
  $ said
  0 implicit 1
  0 implicit 1

The closed gate at the end changes: alone it is one that was being opened; with room after it, no crash leaves it. Room and the zeros after
a batch don't count.

  $ with 28673 '\1' > image
  $ said
  0 implicit 3
  0 implicit 3
  $ { with 28673 '\1'; zeros 4096; } > image
  $ said
  image: damaged at byte 28672: batches up to number 3 are whole, 0 after it are readable
  journal refused 28672
  $ { cat journal; ones 4096; } > image
  $ said
  0 implicit 3
  0 implicit 3
  $ damage 17007 '\1'
  0 implicit 3
  0 implicit 3

The label of the base changes: its version, its profile, and the 2 before them, without which it is no label.

  $ damage 9 '\2'
  image, byte 0: made by version 2 of the device (profile 2); open it with that
  journal refused 0
  $ damage 17 '\3'
  image, byte 0: made by version 1 of the device (profile 3); open it with that
  journal refused 0
  $ damage 8 '\3'
  image, byte 0: no whole base of a device
  journal refused 0
