What a program was linked for, and which guard ended a block of its run, as `PROGRAM.linked` says that `zscli link` writes. Here both are
written by hand: a block whose first byte is over 9 ends at the guard.

  $ cat > guarded.s << 'END'
  >         mov r6, r1
  >         ldxb r7, [r2]
  >         jle r7, 9, end
  >         stw [r3+1008], 2     ; the guard's number
  >         stw [r3+1012], 2     ; its slot
  >         ldxw r6, [r6+8]      ; the block's index
  >         stxdw [r3+1016], r6
  > end:    mov r0, 0
  >         exit
  > END
  $ zscli asm guarded.s guarded.bin
  $ notes() { printf '%s\n' "$@" > guarded.bin.linked; }
  $ guards() {
  >   notes 'linked 1' 'block 512' 'emit 66' 'profile 2' 'guard-at 1008' \
  >     'guard 1 slot 0 filter.c:11 in top: a record has no byte' 'guard 2 slot 2 filter.c:12 in top: "a" is over 9'
  > }
  $ guards

A run over three blocks, of which the second ends at the guard.

  $ zscli format zoned.img --block 512 --zones 2 --size 8 --capacity 8 --open 2 --active 2
  $ for byte in 0 12 3; do printf "\\$byte"; head -c 511 /dev/zero; done > blocks
  $ add() { zscli entry "$@" --into work.cmd; }
  $ add append --lba 0 --data blocks
  $ add open --lba 8
  $ add load --slot 0 --program guarded.bin --emit 66
  $ add run --slot 0 --from 0 --blocks 3 --to 8
  $ for turn in 1 2 3; do echo "turn 0"; done >> work.cmd
  $ add result --slot 0
  $ zscli exec zoned.img work.cmd > replies
  $ explain() { zscli explain replies "$@" | tail -n 2; }
  $ explain --commands work.cmd --program guarded.bin
  queue 1, command 5: result of slot 0: 1024 bytes
    block 1 ended at the guard of filter.c:12 in top: "a" is over 9
  $ explain --program guarded.bin
  queue 1, command 5: done; dwords 0 and 1: 0, 0; 1024 bytes of data
    block 1 ended at the guard of filter.c:12 in top: "a" is over 9
  $ zscli explain replies --commands work.cmd --program guarded.bin --json | tail -n 1 | sed 's/.*"command"/"command"/'
  "command":"result","ended_block":1,"guard":2,"guard_slot":2,"place":"filter.c:12","text":"in top: \"a\" is over 9"}

Without the program nothing is said of guards, and nothing where the notes are of another program, or have no guard with this number and
slot.

  $ explain --commands work.cmd | tail -n 1
  queue 1, command 5: result of slot 0: 1024 bytes
  $ sed -i 's/guard 2 slot 2/guard 2 slot 3/' guarded.bin.linked
  $ explain --commands work.cmd --program guarded.bin | tail -n 1
  queue 1, command 5: result of slot 0: 1024 bytes

Notes that have a sum, the CRC-32 of the program's bytes, are of no other program: that is said in place of what they have.

  $ sum=$(python3 -c 'import zlib; print(zlib.crc32(open("guarded.bin", "rb").read()))')
  $ summed() { notes 'linked 1' "sum $1" 'block 512' 'profile 2' 'guard-at 1008' 'guard 2 slot 2 filter.c:12 in top: "a" is over 9'; }
  $ summed $sum
  $ explain --commands work.cmd --program guarded.bin | tail -n 1
    block 1 ended at the guard of filter.c:12 in top: "a" is over 9
  $ summed 1
  $ zscli explain replies --commands work.cmd --program guarded.bin | grep guarded
  guarded.bin.linked has the notes of another program
  $ zscli explain replies --commands work.cmd --program guarded.bin --json | grep -c guard
  0
  [1]
  $ zscli verify guarded.bin --block 4096 --emit 66 --explain | tail -n 1
  guarded.bin.linked has the notes of another program
  $ zscli entry load --slot 0 --program guarded.bin --emit 64 > line
  guarded.bin.linked has the notes of another program

A guard whose line isn't known is named by its slot.

  $ notes 'linked 1' 'block 512' 'profile 2' 'guard-at 1008' 'guard 2 slot 2 ? a record has no byte'
  $ explain --commands work.cmd --program guarded.bin | tail -n 1
    block 1 ended at the guard of slot 2: a record has no byte

Notes that are damaged are said to be so, and nothing else changes; so is it where there are none.

  $ notes 'linked 1' 'block 512' 'guard-at 1008'
  $ zscli explain replies --program guarded.bin | sed -n 1p
  guarded.bin.linked, line 3: `profile NUMBER` is expected
  $ zscli explain replies --program guarded.bin --json | sed -n 1p | cut -c 1-21
  {"reply":"completion"
  $ zscli verify guarded.bin --block 512 --emit 66 --explain
  accepted 9
  for a block at most 9 steps, and 0 bytes emitted
  guarded.bin.linked, line 3: `profile NUMBER` is expected
  $ zscli entry load --slot 0 --program guarded.bin --emit 66 | cut -c 1-9
  guarded.bin.linked, line 3: `profile NUMBER` is expected
  submit 1 
  $ rm guarded.bin.linked
  $ zscli explain replies > words
  $ zscli explain replies --program guarded.bin | diff - words
  $ zscli verify guarded.bin --block 512 --emit 66 --explain
  accepted 9
  for a block at most 9 steps, and 0 bytes emitted

Each line that notes need.

  $ wrong() { notes "$@"; zscli verify guarded.bin --block 512 --emit 66 --explain | tail -n 1; }
  $ wrong 'linked 2'
  guarded.bin.linked, line 1: `linked 1` is expected
  $ wrong 'linked 1' 'block many'
  guarded.bin.linked, line 2: `block NUMBER` is expected
  $ wrong 'linked 1' 'block 512' 'emit 66' 'profile'
  guarded.bin.linked, line 4: `profile NUMBER` is expected
  $ wrong 'linked 1' 'block 512' 'profile 2' 'guard 1 slot 5 filter.c:12'
  guarded.bin.linked, line 4: `guard NUMBER slot SLOT PLACE TEXT` is expected

With other numbers than those of the notes, `verify --explain` prints what the program was linked for, and `entry load` does on standard
error. A Load doesn't know the size of the blocks.

  $ guards
  $ verify() { zscli verify guarded.bin "$@" --explain | tail -n 1; }
  $ verify --block 512 --emit 66
  for a block at most 9 steps, and 0 bytes emitted
  $ verify --block 512 --emit 65
  guarded.bin was linked for --block 512, --emit 66 and --profile 2
  $ verify --block 4096 --emit 66
  guarded.bin was linked for --block 512, --emit 66 and --profile 2
  $ verify --block 512 --emit 66 --profile 3
  guarded.bin was linked for --block 512, --emit 66 and --profile 2
  $ zscli verify guarded.bin --block 4096 --emit 66 --explain --facts | sed -n 2,4p
  for a block at most 9 steps, and 0 bytes emitted
  guarded.bin was linked for --block 512, --emit 66 and --profile 2
     0  mov r6, r1  r1 is context + 0
  $ zscli verify guarded.bin --block 4096 --emit 66
  accepted 9
  $ zscli entry load --slot 0 --program guarded.bin --emit 66 > line
  $ zscli entry load --slot 0 --program guarded.bin --emit 64 > line
  guarded.bin was linked for --block 512, --emit 66 and --profile 2
  $ notes 'linked 1' 'block 4096' 'profile 3'
  $ zscli entry load --slot 0 --program guarded.bin --emit 0 > line
  guarded.bin was linked for --block 4096 and --profile 3
