Where more than one submission may have been answered, or the command can't have this answer, `zscli explain --commands` says
that it guesses, which line it took, and why.

  $ bytes() { printf '%0*d' $((2 * $1)) 0; }  # so many bytes of zeros, as digits
  $ head -c 512 /dev/zero > record

An append, a run and another append with one identifier: the run's completion may come before that of the second append or after
it. Queue 2 has two submissions with one identifier, each done before the next, and a run as the last of two is no guess.

  $ printf '; one identifier\n\n' > commands
  $ zscli entry append --lba 0 --data record >> commands
  $ zscli entry run --slot 0 --from 0 --blocks 1 --to 64 >> commands
  $ zscli entry append --lba 8 --data record >> commands
  $ zscli entry open --lba 8 --queue 2 >> commands
  $ zscli entry run --slot 0 --from 0 --blocks 1 --to 64 --queue 2 >> commands
  $ cat > replies <<'END'
  > cpl 1 00000000000000000000010001000000
  > pending 0
  > cpl 1 08000000000000000000010001000000
  > cpl 2 00000000000000000000020001000000
  > pending 1
  > cpl 1 01000000010000000000010001000000
  > cpl 2 01000000010000000000020001000000
  > END
  $ zscli explain replies --commands commands
  queue 1, command 1: commands, line 3 (a guess: queue 1 has 3 submissions with identifier 1 there, one behind a run): append of 1 block to the zone of LBA 0: the first is at LBA 0
  pending 0: run 0 was admitted, or had a turn, and has turns left
  queue 1, command 1: commands, line 4 (a guess: queue 1 has 3 submissions with identifier 1 there, one behind a run): run of slot 0 over 1 block from LBA 0 on, to the zone of LBA 64: 8 records in 0 blocks
  queue 2, command 1: open of the zone of LBA 8: done
  pending 1: run 1 was admitted, or had a turn, and has turns left
  queue 1, command 1: commands, line 5 (a guess: queue 1 has 3 submissions with identifier 1 there, one behind a run): append of 1 block to the zone of LBA 8: the first is at LBA 4294967297
  queue 2, command 1: run of slot 0 over 1 block from LBA 0 on, to the zone of LBA 64: 1 record in 1 block

Lines that were cut out, or come twice: there are not as many completions as submissions.

  $ zscli entry open --lba 0 > commands
  $ zscli entry close --lba 0 >> commands
  $ zscli entry open --lba 8 --cid 2 >> commands
  $ cat > replies <<'END'
  > cpl 1 00000000000000000000010001000000
  > cpl 1 00000000000000000000010002000000
  > END
  $ zscli explain replies --commands commands
  queue 1, command 1: commands, line 1 (a guess: queue 1 has 2 submissions with identifier 1 there, and 1 completion here): open of the zone of LBA 0: done
  queue 1, command 2: open of the zone of LBA 8: done
  $ cat > replies <<'END'
  > cpl 1 00000000000000000000010002000000
  > cpl 1 00000000000000000000010002000000
  > END
  $ zscli explain replies --commands commands
  queue 1, command 2: commands, line 3 (a guess: queue 1 has 1 submission with identifier 2 there, and 2 completions here): open of the zone of LBA 8: done
  queue 1, command 2: no submission of commands is left for it: done; dwords 0 and 1: 0, 0

Answers that the commands with their identifiers can't have: a read without data and one whose data is no block, a run with data, an
open with a dword, an open that is no program, an entry that is no command and is done, a report with a dword, one that is cut, and a
result that is cut.

  $ {
  >   zscli entry read --lba 0 --blocks 2 --cid 1
  >   zscli entry read --lba 0 --blocks 2 --cid 2
  >   zscli entry run --slot 0 --from 0 --blocks 1 --to 64 --cid 3
  >   zscli entry open --lba 0 --cid 4
  >   zscli entry open --lba 0 --cid 5
  >   printf 'submit 1 0300060001000000%s\n' $(bytes 56)
  >   zscli entry report --lba 0 --dwords 256 --cid 7
  >   zscli entry report --lba 0 --dwords 256 --cid 8
  >   zscli entry result --slot 0 --cid 9
  > } > commands
  $ cat > replies <<END
  > cpl 1 00000000000000000000010001000000
  > cpl 1 00000000000000000000010002000000 abcd
  > cpl 1 00000000000000000000010003000000 abcd
  > cpl 1 05000000000000000000010004000000
  > cpl 1 030000000a000000000001000500840f
  > cpl 1 00000000000000000000010006000000
  > cpl 1 05000000000000000000010007000000 $(bytes 1024)
  > cpl 1 00000000000000000000010008000000 $(bytes 512)
  > cpl 1 00000000000000000000010009000000 $(bytes 1023)
  > END
  $ zscli explain replies --commands commands
  queue 1, command 1: commands, line 1 (a guess: it cannot have this answer): read of 2 blocks from LBA 0 on: done; dwords 0 and 1: 0, 0
  queue 1, command 2: commands, line 2 (a guess: it cannot have this answer): read of 2 blocks from LBA 0 on: done; dwords 0 and 1: 0, 0; 2 bytes of data
  queue 1, command 3: commands, line 3 (a guess: it cannot have this answer): run of slot 0 over 1 block from LBA 0 on, to the zone of LBA 64: done; dwords 0 and 1: 0, 0; 2 bytes of data
  queue 1, command 4: commands, line 4 (a guess: it cannot have this answer): open of the zone of LBA 0: done; dwords 0 and 1: 5, 0 (of an append: the first block is at LBA 5; of a run: 5 records in 0 blocks)
  queue 1, command 5: commands, line 5 (a guess: it cannot have this answer): open of the zone of LBA 0: refused: Program Refused (type 7h, code C2h; profile): the bytes are no program, or it is not accepted; slot 3, reason 10 (an emit over the limit)
  queue 1, command 6: commands, line 6 (a guess: it cannot have this answer): an entry that is no command: done; dwords 0 and 1: 0, 0
  queue 1, command 7: commands, line 7 (a guess: it cannot have this answer): report of zones from that of LBA 0 on: done; dwords 0 and 1: 5, 0 (of an append: the first block is at LBA 5; of a run: 5 records in 0 blocks); 1024 bytes of data
  queue 1, command 8: commands, line 8 (a guess: it cannot have this answer): report of zones from that of LBA 0 on: done; dwords 0 and 1: 0, 0; 512 bytes of data
  queue 1, command 9: commands, line 9 (a guess: it cannot have this answer): result of slot 0: done; dwords 0 and 1: 0, 0; 1023 bytes of data

A read may have blocks of any size, and a result has 1024 bytes.

  $ cat > replies <<END
  > cpl 1 00000000000000000000010001000000 $(bytes 8192)
  > cpl 1 00000000000000000000010009000000 $(bytes 1024)
  > END
  $ zscli explain replies --commands commands
  queue 1, command 1: read of 2 blocks from LBA 0 on: 8192 bytes
  queue 1, command 9: result of slot 0: 1024 bytes
