`zscli link` of addresses: in constant data, on the stack, and of one area or another. The C is tests/cli/data/areas.c.

  $ xxd -r -p "$ROOT/tests/cli/data/areas.hex" > areas.o
  $ link() { zscli link areas.o --block 512 -o program --function "$@"; }
  $ run() { { printf "$1"; head -c 512 /dev/zero; } | head -c 512 > block; zscli trace program block --emit 512 | tail -n 1; }

A table of addresses of texts stands on the stack with the addresses of these. The guard is for the verifier, which doesn't know what a
table has: no block is ended by it.

  $ link name --verbose
  guard: areas.c, line 25, in name: a guard ends the run where 3 bytes aren't all within the 512 of the stack; see to it just before, as by `if (offset > 509) return 0;`
  52 slots; compares put in: 0 of accesses, 1 of emits, 0 of the block's size
  $ run '\0'
  exit 0 37 0300726564
  $ run '\1'
  exit 0 37 0300677265
  $ run '\5'
  exit 0 37 0300626c75

An OR of an address whose low bits are zeros and an offset is a sum: no guard is needed.

  $ link bits --verbose
  50 slots; compares put in: 0 of accesses, 0 of emits, 0 of the block's size
  $ zscli disasm program | grep -c '^or '
  0
  [1]
  $ run '\1\2\3\1\17\1'
  exit 0 50 08000003010100000001

An emit from the block or from scratch is tried for one area after the other. The guard is that of the last. `--strict` wants no guard.

  $ link either --verbose
  guard: areas.c, line 47, in either: a guard ends the run where 2 bytes aren't all within the 1024 of scratch; see to it just before, as by `if (offset > 1022) return 0;`
  40 slots; compares put in: 0 of accesses, 1 of emits, 0 of the block's size
  $ run '\0ab'
  exit 0 17 02006162
  $ run '\10'
  exit 0 22 02006162
  $ rm program
  $ link either --strict
  link refused: areas.c, line 47, in either: a guard ends the run where 2 bytes aren't all within the 1024 of scratch; see to it just before, as by `if (offset > 1022) return 0;`
  [3]
  $ ls program
  ls: cannot access 'program': No such file or directory
  [2]

A guard that would always end the run is refused, and so is what `verify` would refuse.

  $ link whole
  link refused: areas.c, line 54, in whole: a guard always ends the run here, since a record has more than 510 bytes, which the limit has left beside 2 for each record; emit less
  [3]
  $ link behind
  link refused: areas.c, line 61, in behind: verify refuses slot 0 of the program, a load outside; load at an offset that is compared with a constant or masked just before
  [3]

A call by an address has its line, and a variable that can be changed its name.

  $ link called
  link refused: areas.c, line 79, in called: a call by an address; call by address isn't possible: call the functions by their names, as in a switch
  [3]
  $ xxd -r -p "$ROOT/tests/cli/data/refused.hex" > refused.o
  $ zscli link refused.o --block 512 -o program --function counts
  link refused: refused.c, line 12, in counts: count: an address of data that can be changed; call functions of this file, and keep what changes on the stack or in scratch
  [3]

An address that a called function gave in R0 goes to the stack by a copy in another register, since of R0 the verifier keeps nothing there.
When it comes back it is known, so that no guard is needed. The C is tests/cli/data/spilled.c.

  $ xxd -r -p "$ROOT/tests/cli/data/spilled.hex" > spilled.o
  $ zscli link spilled.o --block 512 -o program --strict
  $ zscli disasm program | grep r10
  stxdw [r10-8], r1
  $ zscli verify program --block 512 --emit 0
  accepted 12
