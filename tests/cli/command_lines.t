How command lines end: with status 0, with 1 where a file fails, and with 2 where the words are wrong.

What is printed to standard output is marked.

  $ zscli() { command zscli "$@" > printed; status=$?; sed 's/^/out: /' printed; return $status; }
  $ zscli format image --block 512 --zones 4 --size 8 --capacity 6 --open 2 --active 3
  $ printf 'turn 0\nturn 1\nturn 2\n' > events
  $ zscli exec image events
  out: idle
  out: idle
  out: idle
  $ zscli exec gone missing
  gone: no such file or folder
  cannot read gone
  [1]

Help is printed to standard output.

  $ zscli --help
  out: Works on zoned namespaces, and on the programs that run beside their data
  out: 
  out: Usage: zscli <COMMAND>
  out: 
  out: Commands:
  out:   format   Writes an image of empty zones
  out:   zones    Prints the states of an image's zones
  out:   report   Prints an image's geometry, limits and zones, or draws them
  out:   upgrade  Saves an image in the last version
  out:   exec     Runs the events of a command file on an image
  out:   query    Asks which records of a zone meet a condition
  out:   serve    Does what standard input asks of an image, as it comes
  out:   fold     Makes of a journal's base and events a new base
  out:   asm      Assembles text to a program
  out:   disasm   Prints a program as assembly text
  out:   link     Makes a program of an object that clang made of C
  out:   trace    Runs a program on one block, step by step
  out:   verify   Says whether a program is accepted
  out:   unpack   Prints the records of output blocks
  out:   entry    Prints a line of a command file, made of words, or adds it to one
  out:   entries  Prints a command file, made of lines of words
  out:   explain  Says in words what `exec` printed
  out:   demo     Shows a pushdown on a device in memory, in words
  out:   help     Print this message or the help of the given subcommand(s)
  out: 
  out: Options:
  out:   -h, --help     Print help
  out:   -V, --version  Print version
  $ zscli --help > long
  $ zscli -h | diff - long
  $ zscli help | diff - long

Help of a command: `exec -h` is short, and `help exec` and `exec --help` are long and the same.

  $ zscli exec -h
  out: Runs the events of a command file on an image
  out: 
  out: Usage: zscli exec [OPTIONS] <IMAGE> <COMMANDS>
  out: 
  out: Arguments:
  out:   <IMAGE>     The image, which `format` makes
  out:   <COMMANDS>  The command file
  out: 
  out: Options:
  out:       --profile <P>  The profile by which Load judges: 2, or 3, which knows more
  out:                      of addresses and sums [default: 2]
  out:       --fail         End with status 4 where a command was refused, and tell how
  out:                      many were and the line of the first
  out:       --stop         End at the first refused command with status 4, and tell
  out:                      its line
  out:       --words        Print in words what each line tells, as `explain
  out:                      --commands` does
  out:   -h, --help         Print help (see more with '--help')
  out: 
  out: Example, in the folder of the sources:
  out: 
  out:   zscli format zoned.img --block 512 --zones 4 --size 64 --capacity 64 --open \
  out:       3 --active 3
  out:   zscli exec zoned.img examples/pushdown.cmd
  $ zscli exec --help > long
  $ zscli help exec | diff - long

The version.

  $ zscli --version
  out: zscli 0.1.0

Words that are wrong. Without any, the help is printed to standard error.

  $ zscli 2> said
  [2]
  $ zscli --help | sed 's/^out: //' | diff - said

A command that there isn't, too few words, too many, and an option that there isn't.

  $ zscli fly
  error: unrecognized subcommand 'fly'
  
    tip: a similar subcommand exists: 'fold'
  
  Usage: zscli <COMMAND>
  
  For more information, try '--help'.
  [2]
  $ zscli exec image
  error: the following required arguments were not provided:
    <COMMANDS>
  
  Usage: zscli exec <IMAGE> <COMMANDS>
  
  For more information, try '--help'.
  [2]
  $ zscli exec image events more
  error: unexpected argument 'more' found
  
  Usage: zscli exec [OPTIONS] <IMAGE> <COMMANDS>
  
  For more information, try '--help'.
  [2]
  $ zscli exec --slow image events
  error: unexpected argument '--slow' found
  
    tip: to pass '--slow' as a value, use '-- --slow'
  
  Usage: zscli exec [OPTIONS] <IMAGE> <COMMANDS>
  
  For more information, try '--help'.
  [2]

Standard output that takes nothing.

  $ command zscli --help > /dev/full
  -: no room is left
  cannot write -
  [1]
  $ command zscli exec image events > /dev/full
  -: no room is left
  cannot write -
  [1]
