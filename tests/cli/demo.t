The command `demo`: a pushdown over a device in memory, in words. It takes no file and makes none.

  $ zscli demo
  queue 1, command 1: append of 4 blocks to the zone of LBA 0
    the first is at LBA 0
  queue 1, command 2: open of the zone of LBA 64
    done
  queue 1, command 3: load of 64 bytes into slot 0
    done
  queue 1, command 4: run of slot 0 over 4 blocks from LBA 0 on, to the zone of LBA 64
    admitted as run 0
  a turn of run 0
    done for one block; more are left
  a turn of run 0
    done for one block; more are left
  queue 2, command 1: reset of the zone of LBA 0
    refused: Zone Held: an active run holds the zone against the command
  a turn of run 0
    done for one block; more are left
  a turn of run 0
    the last block; queue 1, command 4: 2 records in 1 block
  queue 1, command 5: read of 1 block from LBA 64 on
    512 bytes
  
  zone 0 [##..............................] Implicitly Opened, 4 of 64 blocks, write pointer at LBA 4
    LBA 0: order 01, region 3: 2 lamps
    LBA 1: order 02, region 1: 1 desk
    LBA 2: order 03, region 3: 40 nails
    LBA 3: order 04, region 2: 5 cups
  zone 1 [#...............................] Explicitly Opened, 1 of 64 blocks, write pointer at LBA 65
    LBA 64, a record: order 01, region 3: 2 lamps
    LBA 64, a record: order 03, region 3: 40 nails
  zone 2 [................................] Empty, 0 of 64 blocks, write pointer at LBA 128
  zone 3 [................................] Empty, 0 of 64 blocks, write pointer at LBA 192
  $ ls

With `--hex` each entry's 64 bytes follow its words, and each completion's 16 bytes what it came to.

  $ zscli demo --hex > hexed
  $ head -n 4 hexed
  queue 1, command 1: append of 4 blocks to the zone of LBA 0
      7d000100010000000000000000000000000000000000000000000000000000000000000000000000000000000000000003000000000000000000000000000000
    the first is at LBA 0
      00000000000000000000010001000000
  $ grep -c '^    [0-9a-f]\{128\}$' hexed
  6
  $ grep -c '^    [0-9a-f]\{32\}$' hexed
  6

But for these lines both print the same.

  $ zscli demo > plain
  $ grep -v '^    [0-9a-f]*$' hexed | cmp - plain

It takes no other word.

  $ zscli demo file
  error: unexpected argument 'file' found
  
  Usage: zscli demo [OPTIONS]
  
  For more information, try '--help'.
  [2]
