Questions about the records of a zone. What `query` prints is compared with what sqlite3 says of the same rows, where that is installed.

Records have 32 bytes, of which 20 are used: a number, a region, a price, a temperature whose highest byte comes first, and a word. 16 fit
a block.

  $ rows() {  # so many records as lines with commas
  >   awk -v n="$1" 'BEGIN {
  >     split("lamp desk nail cups", words)
  >     for (i = 1; i <= n; i++)
  >       print i "," i * 7 % 5 "," i * 7919 % 100003 "," i * 131 % 401 - 200 "," words[i * 3 % 4 + 1]
  >   }'
  > }
  $ bytes() {  # the same records as bytes
  >   awk -F , '
  >     function number(n, size, s) { for (s = ""; size-- > 0; n = int(n / 256)) s = s sprintf("%02x", n % 256); return s }
  >     BEGIN { hex["lamp"] = "6c616d70"; hex["desk"] = "6465736b"; hex["nail"] = "6e61696c"; hex["cups"] = "63757073" }
  >     { print number($1, 2) number($2, 1) "00" number($3, 4) sprintf("%04x", ($4 + 65536) % 65536) "0000" hex[$5] sprintf("%032d", 0) }
  >   ' | xxd -r -p
  > }
  $ cat > orders.layout <<'END'
  > ; an order
  > records 32
  > number u16 @0
  > region u8 @2
  > price u32 @4
  > temperature i16be @8
  > word text8 @12
  > END
  $ rows 64 > rows.csv
  $ bytes < rows.csv > orders.bin
  $ zscli format orders.img --block 512 --zones 4 --size 64 --capacity 64 --open 3 --active 3
  $ zscli entry append --lba 0 --data orders.bin > append.cmd
  $ zscli exec orders.img append.cmd
  cpl 1 00000000000000000000010001000000
  $ cp orders.img before
  $ query() { zscli query orders.img --zone 0 --layout orders.layout "$@"; }
  $ same() {  # asks sqlite3 the same of the rows, and prints what differs from the answer
  >   if command -v sqlite3 > sqlite3.path; then
  >     sqlite3 -csv -header <<END | tr -d '\r' | diff - answer
  > create table orders (number integer, region integer, price integer, temperature integer, word text);
  > .import rows.csv orders
  > $1;
  > END
  >   fi
  > }

Rows come in the order of the blocks.

  $ query --where 'region == 3 && price > 60000' --select number,price,word | tee answer
  number,price,word
  9,71271,cups
  24,90053,lamp
  34,69240,nail
  49,88022,cups
  59,67209,desk
  $ same 'select number, price, word from orders where region = 3 and price > 60000'

All fields are printed where none is selected.

  $ query --where 'temperature < -150' > answer
  $ same 'select * from orders where temperature < -150'
  $ head -n 3 answer
  number,region,price,temperature,word
  34,3,69240,-157,nail
  37,4,92997,-165,cups

Conditions of other forms: with parentheses, a field with a field, hexadecimal digits, bytes, a field without a name, ranges and sets, and
the argument.

  $ query --where '!(region == 3 || region == 1) && number <= 0x20' --select number,region > answer
  $ same 'select number, region from orders where not (region = 3 or region = 1) and number <= 32'
  $ query --where 'number < region' --select number,region | tee answer
  number,region
  1,2
  2,4
  $ same 'select number, region from orders where number < region'
  $ query --where 'bytes@12 == 0x6c616d70 && u8@2 != 0' --select number,word > answer
  $ same "select number, word from orders where word = 'lamp' and region <> 0"
  $ query --where 'bytes@12 == "lamp" && region in {1, 3, 4} && number in 10..=40' --select number,region,word > answer
  $ same "select number, region, word from orders where word = 'lamp' and region in (1, 3, 4) and number between 10 and 40"
  $ query --where 'region == arg' --argument 2 --select number --blocks 2 > answer
  $ same 'select number from orders where region = 2 and number <= 32'

Tallies of all that match. Of no record there is no least and no greatest.

  $ query --where 'region != 3' --count --sum price --least price --greatest number | tee answer
  count,sum(price),least(price),greatest(number)
  51,2571010,913,63
  $ same 'select count(*) as count, sum(price) as "sum(price)", min(price) as "least(price)", max(number) as "greatest(number)" from orders where region <> 3'
  $ query --where 'region == 9' --count --sum price --least price --greatest number
  count,sum(price),least(price),greatest(number)
  0,0,,
  $ query --where 'region != 3' --sum temperature --least temperature --greatest temperature | tee answer
  sum(temperature),least(temperature),greatest(temperature)
  670,-189,196
  $ same 'select sum(temperature) as "sum(temperature)", min(temperature) as "least(temperature)", max(temperature) as "greatest(temperature)" from orders where region <> 3'
  $ query --where 'temperature < -150' --sum temperature --least temperature --greatest temperature | tee answer
  sum(temperature),least(temperature),greatest(temperature)
  -1062,-197,-157
  $ same 'select sum(temperature) as "sum(temperature)", min(temperature) as "least(temperature)", max(temperature) as "greatest(temperature)" from orders where temperature < -150'

A row for each value of a field. A group that has no record has no row. The values of a byte are asked for in as many programs as they
need; of a wider field there are as many groups as the words of one program allow, and a record that is of none is said.

  $ query --where 'price > 20000' --count --sum price --least temperature --greatest temperature --by region 2> notes | tee answer
  region,count,sum(price),least(temperature),greatest(temperature)
  0,10,652805,-133,188
  1,10,573615,-181,193
  2,10,573615,-189,185
  3,10,573615,-197,177
  4,10,652805,-165,169
  $ cat notes
  note: 8 programs, 8 runs
  $ same 'select region, count(*) as count, sum(price) as "sum(price)", min(temperature) as "least(temperature)", max(temperature) as "greatest(temperature)" from orders where price > 20000 group by region order by region'
  $ query --where 'region == 3 && number < 64' --sum temperature --by number 2> notes | tee answer
  number,sum(temperature)
  4,-77
  9,177
  14,30
  19,-117
  24,137
  29,-10
  34,-157
  39,97
  44,-50
  49,-197
  54,57
  59,-90
  $ same 'select number, sum(temperature) as "sum(temperature)" from orders where region = 3 and number < 64 group by number order by number'
  $ query --where 'region == 9' --count --by region
  region,count
  note: 2 programs, 2 runs
  $ query --where 'number < 4' --count --by region --json
  [{"region":1,"count":1},
  {"region":2,"count":1},
  {"region":4,"count":1}]
  note: 2 programs, 2 runs
  $ query --where 'region >= 0' --count --sum price --by number
  --by number: of the records that match 1 have a value of 64 or more, and there are groups for 0 to 63; add `&& number < 64` to the condition, or ask for fewer tallies
  question refused
  [3]
  $ query --where 'region >= 0' --count --by temperature
  --by temperature: records are grouped by an unsigned number, of the types u8, u16, u32 and u64
  question refused
  [3]
  $ query --where 'region >= 0' --by region
  --by region: a group has tallies; ask for --count, --sum, --least or --greatest
  question refused
  [3]
  $ query --where 'region == 3' --count --sum price --by number --explain
  where: u8@2 == 3
  records: 16 of 32 bytes in each block, from byte 0 on
  tally: count, sum(price)
  by: number u16 @0, of the values 0 to 63, a program for 64 values
  program: 116 of 4096 slots, for 16 records of each block; it counts what matches and has a greater value
  program: 244 of 4096 slots, for 16 records of each block; it emits at most 0 bytes for a block (--emit 0)
  source: 4 blocks of zone 0
  room: 0 blocks of zone 1, if all records match
  runs: 2 runs, each over at most 4 blocks

Other forms: JSON, and bytes.

  $ query --where 'number < 3' --select number,temperature,word --json
  [{"number":1,"temperature":-69,"word":"cups"},
  {"number":2,"temperature":62,"word":"nail"}]
  $ query --where 'region == 9' --select number --json
  []
  $ query --where 'region == 9' --count --least price --json
  [{"count":0,"least(price)":null}]
  $ query --where 'number < 3' --select region,price --raw | xxd -p
  0200ef1e00000400de3d0000

A text with a mark of lines stands between quotes, one that isn't UTF-8 in hexadecimal, and none is obeyed by a terminal.

  $ { printf '%-8s%-8s' 'a, b' 'say "x"'; printf '\377%-15s' x; printf '\033[1m%-12s' y; printf '%16s' ''; } > odd.bin
  $ head -c 448 /dev/zero >> odd.bin
  $ printf 'records 64 count 1\none text8 @0\ntwo text8 @8\nthree text16 @16\nfour text16 @32\nfive bytes3 @0\n' > odd.layout
  $ zscli format odd.img --block 512 --zones 2 --size 8 --capacity 8 --open 2 --active 2
  $ zscli entry append --lba 0 --data odd.bin > odd.cmd
  $ zscli exec odd.img odd.cmd
  cpl 1 00000000000000000000010001000000
  $ zscli query odd.img --zone 0 --layout odd.layout --where 'u8@0 == 97'
  one,two,three,four,five
  "a, b","say ""x""",0xff782020202020202020202020202020,\x1b[1my,0x612c20
  $ zscli query odd.img --zone 0 --layout odd.layout --where 'u8@0 == 97' --select two,four --json
  [{"two":"say \"x\"","four":"\u001b[1my"}]

How a question is understood, and what asking it takes.

  $ query --where 'region == 3 && !(price < 10)' --select price,number --explain
  where: u8@2 == 3 && !(u32@4 < 10)
  records: 16 of 32 bytes in each block, from byte 0 on
  select: price u32 @4, number u16 @0
  program: 196 of 4096 slots, for 16 records of each block; it emits at most 128 bytes for a block (--emit 128)
  source: 4 blocks of zone 0
  room: 1 block of zone 1, if all records match
  runs: 1 run, each over at most 4 blocks
  $ query --where 'region == 3' --count --explain
  where: u8@2 == 3
  records: 16 of 32 bytes in each block, from byte 0 on
  tally: count
  program: 84 of 4096 slots, for 16 records of each block; it emits at most 0 bytes for a block (--emit 0)
  source: 4 blocks of zone 0
  room: 0 blocks of zone 1, if all records match
  runs: 1 run, each over at most 4 blocks

Whole records of a full block are more than one program may emit, so that there are two, and a run of each for each block. The rows are
in order all the same.

  $ { cat orders.layout; printf 'rest bytes12 @20\nfourth u8 @3\ntenth u16 @10\n'; } > whole.layout
  $ whole() { zscli query orders.img --zone 0 --layout whole.layout "$@"; }
  $ whole --where 'price > 90000' 2> noted | sed 's/,0x0*,0,0$//; s/,rest,fourth,tenth$//' > answer
  $ cat noted
  note: 2 programs, 8 runs
  $ same 'select * from orders where price > 90000'
  $ whole --where 'price > 90000' --explain
  where: u32@4 > 90000
  records: 16 of 32 bytes in each block, from byte 0 on
  select: number u16 @0, region u8 @2, price u32 @4, temperature i16be @8, word text8 @12, rest bytes12 @20, fourth u8 @3, tenth u16 @10
  program: 52 of 4096 slots, for 8 records of each block; it emits at most 272 bytes for a block (--emit 272)
  program: 52 of 4096 slots, for 8 records of each block; it emits at most 272 bytes for a block (--emit 272)
  source: 4 blocks of zone 0
  room: 8 blocks of zone 1, if all records match
  runs: 8 runs, each over at most 1 block

The selected fields alone are emitted where one program holds their copies: those that lie side by side in one piece.

  $ query --where 'price > 90000' --select word,temperature,price --explain
  where: u32@4 > 90000
  records: 16 of 32 bytes in each block, from byte 0 on
  select: word text8 @12, temperature i16be @8, price u32 @4
  program: 196 of 4096 slots, for 16 records of each block; it emits at most 256 bytes for a block (--emit 256)
  source: 4 blocks of zone 0
  room: 2 blocks of zone 1, if all records match
  runs: 1 run, each over at most 4 blocks
  $ query --where 'price > 90000' --select word,temperature,price,temperature > answer
  $ same 'select word, temperature, price, temperature from orders where price > 90000'

The program of a question for a device of one's own.

  $ query --where 'region == 3 && price > 60000' --select number --program picked.bin
  entry load --slot 0 --program picked.bin --emit 64
  $ zscli verify picked.bin --block 512 --emit 64
  accepted 132
  $ cp orders.img own.img
  $ zscli entries /dev/stdin > own.cmd <<'END'
  > open --lba 64
  > load --slot 0 --program picked.bin --emit 64
  > run --slot 0 --from 0 --blocks 4 --to 64
  > END
  $ zscli exec own.img own.cmd --words | tail -n 1
  queue 1, command 3: run of slot 0 over 4 blocks from LBA 0 on, to the zone of LBA 64: 5 records in 1 block

Of several programs one is named. Each is loaded into a slot of its own.

  $ whole --where 'price > 90000' --program none.bin
  --program: the question takes 2 programs; name one by --part, from 0 to 1, or select fewer bytes, or give the layout a `count` of fewer records
  question refused
  [3]
  $ whole --where 'price > 90000' --program first.bin --part 0
  entry load --slot 0 --program first.bin --emit 272
  $ whole --where 'price > 90000' --program second.bin --part 1
  entry load --slot 1 --program second.bin --emit 272
  $ whole --where 'price > 90000' --program none.bin --part 2
  --part 2: the question has programs 0 to 1
  question refused
  [3]
  $ whole --where 'price > 90000' --program none.bin --part second
  --part: 'second' is not a number from 0 to 4294967295
  [2]
  $ test -e none.bin
  [1]
  $ cat first.bin second.bin | cksum | cut -d ' ' -f 2
  832

Without an image, for blocks of so many bytes: how the question is understood, and its program.

  $ of_blocks() { zscli query --layout orders.layout --where 'region == 3 && price > 60000' --select number "$@"; }
  $ of_blocks --block 512 --explain
  where: u8@2 == 3 && u32@4 > 60000
  records: 16 of 32 bytes in each block, from byte 0 on
  select: number u16 @0
  program: 132 of 4096 slots, for 16 records of each block; it emits at most 64 bytes for a block (--emit 64)
  $ of_blocks --block 512 --program same.bin
  entry load --slot 0 --program same.bin --emit 64
  $ cmp same.bin picked.bin
  $ of_blocks --block 512 --program same.bin --part 0
  entry load --slot 0 --program same.bin --emit 64
  $ cmp same.bin picked.bin
  $ zscli query --block 4096 --layout orders.layout --where 'region == arg' --count --sum price --explain
  where: u8@2 == arg
  records: 128 of 32 bytes in each block, from byte 0 on
  tally: count, sum(price)
  program: 1156 of 4096 slots, for 128 records of each block; it emits at most 0 bytes for a block (--emit 0)
  $ zscli query --block 512 --layout whole.layout --where 'price > 90000' --program third.bin --part 1
  entry load --slot 1 --program third.bin --emit 272
  $ cmp second.bin third.bin

There is no answer without an image, and no image without a zone.

  $ of_blocks --block 512
  without an image no records are asked about; name one and its --zone, or ask for --explain or --program
  question refused
  [3]
  $ of_blocks --block 500 --explain
  a block of 500 bytes: the block size is no power of 2 from 512 to 16384
  geometry refused 1
  [3]
  $ of_blocks --explain
  error: the following required arguments were not provided:
    <IMAGE|--block <B>>
  
  Usage: zscli query --layout <FILE> --where <CONDITION> --select <FIELDS> --explain <IMAGE|--block <B>>
  
  For more information, try '--help'.
  [2]
  $ of_blocks --explain orders.img
  error: the following required arguments were not provided:
    --zone <Z>
  
  Usage: zscli query --layout <FILE> --where <CONDITION> --zone <Z> --select <FIELDS> --explain <IMAGE|--block <B>>
  
  For more information, try '--help'.
  [2]
  $ of_blocks --explain orders.img --zone 0 --block 512
  error: the argument '[IMAGE]' cannot be used with '--block <B>'
  
  Usage: zscli query --layout <FILE> --where <CONDITION> --select <FIELDS> --explain --zone <Z> <IMAGE|--block <B>>
  
  For more information, try '--help'.
  [2]
  $ of_blocks --block 512 --explain --part 0 2>&1 | head -n 2
  error: the following required arguments were not provided:
    --program <FILE>

A journal is asked as an image is, and the file stays as it is.

  $ cp orders.img journal
  $ zscli serve journal --durable < /dev/null
  $ cp journal journal.before
  $ zscli query journal --zone 0 --layout orders.layout --where 'number < 3' --select number
  number
  1
  2
  $ cmp journal journal.before
  $ cmp orders.img before

The answer is kept in a zone of the image, in blocks as the device appends them, where one is named.

  $ cp orders.img kept.img
  $ kept() { zscli query kept.img --zone 0 --layout orders.layout --where 'region == 3 && price > 60000' --select number "$@"; }
  $ kept --into 2
  number
  9
  24
  34
  49
  59
  $ zscli zones kept.img
  0 implicit 4
  1 empty 0
  2 explicit 1
  3 empty 0
  $ tail -c 512 kept.img > kept.bin
  $ zscli unpack kept.bin --block 512
  0900
  1800
  2200
  3100
  3b00
  $ kept --into 0
  --into 0: the zone is asked about; name another
  question refused
  [3]
  $ kept --into 4
  --into 4: the image has zones 0 to 3
  question refused
  [3]
  $ zscli query kept.img --zone 0 --layout orders.layout --where 'region == 3' --count --into 2
  --into 2: rows are kept in a zone, and tallies aren't; ask without --into
  question refused
  [3]

What isn't understood is refused, with the column and what is possible there.

  $ query --where 'region = 3'
  --where, column 8: a comparison is expected: ==, !=, <, <=, >, >= or in
    region = 3
           ^
  question refused
  [3]
  $ query --where 'regon == 3'
  --where, column 1: the layout has no field of this name; without a name a field is written as u32@8
    regon == 3
    ^
  question refused
  [3]
  $ query --where 'word == 3'
  --where, column 1: `word` is no number; its bytes are compared as in bytes@12 == "ab"
    word == 3
    ^
  question refused
  [3]
  $ query --where 'number == 65536'
  --where, column 11: the number is beyond those of the field's type
    number == 65536
              ^
  question refused
  [3]
  $ query --where 'u32@30 == 3'
  --where: what is at offset 30 ends at byte 34, and a record of the layout at 32
  question refused
  [3]
  $ query --where 'price > temperature'
  --where, column 9: a field is compared with one that is signed as it is, or unsigned as it is
    price > temperature
            ^
  question refused
  [3]
  $ query --where 'region == 3' --select number,regon
  --select: the layout has no field `regon`; it has number, region, price, temperature, word
  question refused
  [3]
  $ query --where 'region == 3' --sum word
  --sum word: only numbers are tallied, of the types u8 to u64 and i8 to i64
  question refused
  [3]
  $ query --where 'region == 3' --count --select number
  --select asks for a row of each record and --count, --sum, --least and --greatest for one of all; ask for either
  question refused
  [3]
  $ query --where 'region == 3' --json --raw
  --csv, --json and --raw are three forms of one answer; ask for one
  question refused
  [3]
  $ query --where 'region == 3' --count --raw
  --raw prints the bytes of records, and a tally has none; ask without --raw
  question refused
  [3]

So are blocks that aren't there, and an answer for which there is no zone.

  $ of_zone() { zscli query orders.img --layout orders.layout --where 'region == 3' "$@"; }
  $ of_zone --zone 4
  --zone 4: the image has zones 0 to 3
  question refused
  [3]
  $ of_zone --zone 1
  --zone 1: no block of the zone is written; `zscli zones` lists what is
  question refused
  [3]
  $ of_zone --zone 0 --blocks 5
  --blocks 5: 4 blocks of the zone are written; ask of 1 to 4
  question refused
  [3]
  $ of_zone --zone first
  --zone: 'first' is not a number from 0 to 4294967295
  [2]
  $ cp orders.img lost.img
  $ echo 'fault 0 offline' > lost.cmd
  $ zscli exec lost.img lost.cmd
  done
  $ zscli query lost.img --zone 0 --layout orders.layout --where 'region == 3'
  --zone 0: the zone is offline, so that nothing of it can be read
  question refused
  [3]
  $ cp orders.img taken.img
  $ printf 'finish --lba 64\nfinish --lba 128\nfinish --lba 192\n' | zscli entries /dev/stdin > taken.cmd
  $ zscli exec taken.img taken.cmd > replies
  $ zscli query taken.img --zone 0 --layout orders.layout --where 'region == 3'
  no zone is Empty for the answer; reset one whose blocks aren't wanted any more, as by `zscli entry reset`
  question refused
  [3]
  $ cp orders.img active.img
  $ printf 'open --lba 64\nopen --lba 128\n' | zscli entries /dev/stdin > active.cmd
  $ zscli exec active.img active.cmd > replies
  $ zscli query active.img --zone 0 --layout orders.layout --where 'region == 3'
  no zone can be opened for the answer, so finish or reset one that is open or closed: Too Many Active Zones (type 1h, code BDh): an active resource is wanted and none is free
  question refused
  [3]
  $ zscli query active.img --zone 0 --layout orders.layout --where 'region == 3' --count
  count
  13

A question that too few programs can ask: 1024 records of 16 bytes, of each 17 comparisons.

  $ zscli format dense.img --block 16384 --zones 2 --size 4 --capacity 4 --open 2 --active 2
  $ head -c 16384 /dev/zero > dense.bin
  $ zscli entry append --lba 0 --data dense.bin --block 16384 > dense.cmd
  $ zscli exec dense.img dense.cmd
  cpl 1 00000000000000000000010001000000
  $ printf 'records 16\nnumber u16 @0\n' > dense.layout
  $ dense() { zscli query dense.img --zone 0 --layout dense.layout "$@"; }
  $ dense --where "$(printf 'number != %d && ' $(seq 16))number == 0" --count
  the question needs more than 8 programs of 4096 slots, each for a part of a block's 1024 records; compare fewer fields or select fewer bytes
  question refused
  [3]
  $ dense --where "$(printf 'number != %d && ' $(seq 3))number == 0" --count
  count
  1024
  note: 3 programs, 3 runs

A layout is refused by its lowest wrong line, before the image is read.

  $ of_layout() { printf '%b\n' "$1" > wrong.layout; zscli query none.img --zone 0 --layout wrong.layout --where 'a == 3'; }
  $ of_layout 'a u32 @0'
  wrong.layout, line 1: a layout begins with a line such as `records 64`, the bytes of a record
  line 1 refused
  [3]
  $ of_layout 'records 64\na u32 @62'
  wrong.layout, line 2: the field ends at byte 66, and a record at 64
  line 2 refused
  [3]
  $ of_layout 'records 64 to 3'
  wrong.layout, line 1: after `records` the bytes of a record are expected, then, if need be, `from` and how many bytes of a block come before the first record, and `count` and how many records of a block there are; each at most 65535
  line 1 refused
  [3]
  $ of_layout 'records 0'
  wrong.layout, line 1: a record has 1 byte at least, and a block 1 record
  line 1 refused
  [3]
  $ of_layout 'records 64\nrecords 32'
  wrong.layout, line 2: a layout has one line of `records`, its first
  line 2 refused
  [3]
  $ of_layout 'records 64\na u33 @0'
  wrong.layout, line 2: after the name a field is expected, as in u32@8: before the @ a type is expected: u8, u16, u32, u64, i8, i16, i32 or i64, or with be after it as in u32be
  line 2 refused
  [3]
  $ of_layout 'records 64\na u32 0'
  wrong.layout, line 2: after the name a field is expected, as in u32@8: after the @ an offset is expected: a decimal number from 0 to 65535
  line 2 refused
  [3]
  $ of_layout 'records 64\na u32 @0 @4'
  wrong.layout, line 2: nothing is expected after the offset; a comment begins with ;
  line 2 refused
  [3]
  $ of_layout 'records 64\n0a u32 @0'
  wrong.layout, line 2: a name is expected: letters, digits and _, no digit first, and none of arg, bytes and in
  line 2 refused
  [3]
  $ of_layout 'records 64\narg u32 @0'
  wrong.layout, line 2: a name is expected: letters, digits and _, no digit first, and none of arg, bytes and in
  line 2 refused
  [3]
  $ of_layout 'records 64\na u32 @0\na u32 @4'
  wrong.layout, line 3: an earlier line has the same name
  line 3 refused
  [3]
  $ of_layout 'records 64\na text @0'
  wrong.layout, line 2: after `text` or `bytes` how many bytes there are is expected, from 1 to 65535, as in text16
  line 2 refused
  [3]
  $ printf '\377\n' > wrong.layout
  $ zscli query none.img --zone 0 --layout wrong.layout --where 'a == 3'
  wrong.layout: a layout is text
  question refused
  [3]
  $ zscli query orders.img --zone 0 --layout none.layout --where 'a == 3'
  none.layout: no such file or folder
  cannot read none.layout
  [1]
  $ printf 'records 600\n' > wide.layout
  $ zscli query orders.img --zone 0 --layout wide.layout --where 'u8@0 == 3' --count
  the layout's records end at byte 600 of a block, and a block has 512 bytes; at most 0 fit
  question refused
  [3]
