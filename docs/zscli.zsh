#compdef zscli
# Made by tools/pages/make.sh of the help texts: completes the words of zscli in zsh.

_zscli() {
    local curcontext=$curcontext state line
    typeset -A opt_args
    _arguments -C \
        '(- *)--help[Print help]' \
        '(- *)--version[Print version]' \
        '1: :->command' \
        '*:: :->words' && return
    case $state in
    command)
        local -a commands=(
            'format:Writes an image of empty zones'
            'zones:Prints the states of an image'\''s zones'
            'report:Prints an image'\''s geometry, limits and zones, or draws them'
            'upgrade:Saves an image in the last version'
            'exec:Runs the events of a command file on an image'
            'query:Asks which records of a zone meet a condition'
            'serve:Does what standard input asks of an image, as it comes'
            'fold:Makes of a journal'\''s base and events a new base'
            'asm:Assembles text to a program'
            'disasm:Prints a program as assembly text'
            'link:Makes a program of an object that clang made of C'
            'trace:Runs a program on one block, step by step'
            'verify:Says whether a program is accepted'
            'unpack:Prints the records of output blocks'
            'entry:Prints a line of a command file, made of words, or adds it to one'
            'entries:Prints a command file, made of lines of words'
            'explain:Says in words what `exec` printed'
            'demo:Shows a pushdown on a device in memory, in words'
        )
        _describe command commands
        ;;
    words)
        case $line[1] in
        format) _zscli_format ;;
        zones) _zscli_zones ;;
        report) _zscli_report ;;
        upgrade) _zscli_upgrade ;;
        exec) _zscli_exec ;;
        query) _zscli_query ;;
        serve) _zscli_serve ;;
        fold) _zscli_fold ;;
        asm) _zscli_asm ;;
        disasm) _zscli_disasm ;;
        link) _zscli_link ;;
        trace) _zscli_trace ;;
        verify) _zscli_verify ;;
        unpack) _zscli_unpack ;;
        entry) _zscli_entry ;;
        entries) _zscli_entries ;;
        explain) _zscli_explain ;;
        demo) _zscli_demo ;;
        esac
        ;;
    esac
}

_zscli_format() {
    _arguments \
        ':IMAGE:_files' \
        '--block[Bytes of a block]:B: ' \
        '--zones[The number of zones]:N: ' \
        '--size[Blocks of a zone]:S: ' \
        '--capacity[Blocks of a zone that can be written]:C: ' \
        '--open[The most zones that are open at a time]:O: ' \
        '--active[The most zones that are active at a time]:A: ' \
        '--force[Replaces a file whose bytes are no image too]' \
        '(- *)--help[Print help]'
}

_zscli_zones() {
    _arguments \
        ':IMAGE:_files' \
        '(- *)--help[Print help]'
}

_zscli_report() {
    _arguments \
        ':IMAGE:_files' \
        '--json[Print one JSON object]' \
        '--map[Draw the zones]' \
        '--color[When a map has colors]:WHEN:(auto always never)' \
        '(- *)--help[Print help]'
}

_zscli_upgrade() {
    _arguments \
        ':IMAGE:_files' \
        '(- *)--help[Print help]'
}

_zscli_exec() {
    _arguments \
        ':IMAGE:_files' \
        ':COMMANDS:_files' \
        '--profile[The profile by which Load judges]:P: ' \
        '--fail[End with status 4 where a command was refused, and tell how many were and the line of the first]' \
        '--stop[End at the first refused command with status 4, and tell its line]' \
        '--words[Print in words what each line tells, as `explain --commands` does]' \
        '(- *)--help[Print help]'
}

_zscli_query() {
    _arguments \
        '::IMAGE:_files' \
        '--block[In place of an image, with --explain or --program]:B: ' \
        '--zone[The zone whose records are asked about]:Z: ' \
        '--blocks[Ask about the zone'\''s first N blocks alone \[default]:N: ' \
        '--layout[The layout of the records]:FILE:_files' \
        '--where[What the records have to meet]:CONDITION: ' \
        '--argument[The argument of the run, a number that the program is told]:A: ' \
        '--select[The fields that are printed, with commas between them \[default]:FIELDS: ' \
        '--count[Print how many records match]' \
        '--sum[Print the sum of a field]:FIELD: ' \
        '--least[Print the least value of a field]:FIELD: ' \
        '--greatest[Print the greatest value of a field]:FIELD: ' \
        '--by[Print a row of tallies for each value of an unsigned field]:FIELD: ' \
        '--csv[Print lines with commas, as without this]' \
        '--json[Print a JSON list of objects]' \
        '--raw[Print the bytes of the records]' \
        '--into[Keep the records that match in this zone of the image, as the device appends them]:ZONE: ' \
        '--explain[Print how the question is understood, and what asking it takes]' \
        '--program[Write the program that asks the question]:FILE:_files' \
        '--part[Of several programs, write this one, from 0 on]:N: ' \
        '(- *)--help[Print help]'
}

_zscli_serve() {
    _arguments \
        ':IMAGE:_files' \
        '--frames[Takes requests and gives answers as frames of bytes, not as lines]' \
        '--drain[Gives the runs all of their turns behind each line, or with --frames before more is read, and writes the answers to these too]' \
        '--durable[Answers nothing before it is on the disk, by a journal in the image'\''s file]' \
        '(- *)--help[Print help]'
}

_zscli_fold() {
    _arguments \
        ':IMAGE:_files' \
        '--salvage[Makes a new file TO of the batches that are whole, and leaves IMAGE as it is]:TO:_files' \
        '(- *)--help[Print help]'
}

_zscli_asm() {
    _arguments \
        ':TEXT:_files' \
        ':PROGRAM:_files' \
        '(- *)--help[Print help]'
}

_zscli_disasm() {
    _arguments \
        ':PROGRAM:_files' \
        '--slots[Print each instruction'\''s slot before it]' \
        '(- *)--help[Print help]'
}

_zscli_link() {
    _arguments \
        ':OBJECT:_files' \
        '--block[Bytes of a block]:B: ' \
        '--emit[The most bytes that are emitted for a block, two for each record counted \[default]:E: ' \
        '--profile[The profile that accepts the program]:P: ' \
        '-o[The program that is written]:PROGRAM:_files' '--output[The program that is written]:PROGRAM:_files' \
        '--function[The function to start with]:NAME: ' \
        '--cut-loops[Give loops as many rounds as there are slots for, and list those that have more]' \
        '--strict[Refuse a program with a guard that may end a run, or a loop that is cut]' \
        '--guard-at[The byte of scratch from which on guards write, a multiple of 8 up to 1008]:OFFSET: ' \
        '--silent-guards[Let guards write nothing to scratch]' \
        '--verbose[Print how many slots the program has, and how many compares were put in]' \
        '(- *)--help[Print help]'
}

_zscli_trace() {
    _arguments \
        ':PROGRAM:_files' \
        ':BLOCK:_files' \
        '--emit[The most bytes that may be emitted for a block, two for each record counted]:E: ' \
        '--argument[The argument of the run, a number that the program is told]:A: ' \
        '--fuel[The most steps]:F: ' \
        '--registers[Print each instruction, and the register that it changed]' \
        '(- *)--help[Print help]'
}

_zscli_verify() {
    _arguments \
        ':PROGRAM:_files' \
        '--block[Bytes of a block]:B: ' \
        '--emit[The most bytes that may be emitted for a block, two for each record counted]:E: ' \
        '--profile[The profile to judge by]:P: ' \
        '--explain[Say in words what is known]' \
        '--facts[List what is known at each slot]' \
        '--json[Print one JSON object]' \
        '(- *)--help[Print help]'
}

_zscli_unpack() {
    _arguments \
        ':FILE:_files' \
        '--block[Bytes of a block]:B: ' \
        '--json[Print one JSON object]' \
        '(- *)--help[Print help]'
}

_zscli_entry() {
    local curcontext=$curcontext state line
    typeset -A opt_args
    _arguments -C \
        '(- *)--help[Print help]' \
        '1: :->command' \
        '*:: :->words' && return
    case $state in
    command)
        local -a commands=(
            'append:Appends the blocks of a file to a zone'
            'write:Writes the blocks of a file at a zone'\''s write pointer'
            'read:Reads blocks of a zone'
            'open:Opens a zone, or all Closed zones'
            'close:Closes a zone, or all open zones'
            'finish:Makes a zone Full, or all open and Closed zones'
            'reset:Empties a zone, or all open, Closed and Full zones'
            'offline:Takes a Read Only zone offline, or all of them'
            'report:Reports zones'
            'load:Loads a program into a slot'
            'run:Starts a run of a slot'\''s program'
            'result:Gives the scratch bytes that the last successful run of a slot'\''s program left'
        )
        _describe command commands
        ;;
    words)
        case $line[1] in
        append) _zscli_entry_append ;;
        write) _zscli_entry_write ;;
        read) _zscli_entry_read ;;
        open) _zscli_entry_open ;;
        close) _zscli_entry_close ;;
        finish) _zscli_entry_finish ;;
        reset) _zscli_entry_reset ;;
        offline) _zscli_entry_offline ;;
        report) _zscli_entry_report ;;
        load) _zscli_entry_load ;;
        run) _zscli_entry_run ;;
        result) _zscli_entry_result ;;
        esac
        ;;
    esac
}

_zscli_entry_append() {
    _arguments \
        '--lba[The lowest logical block address of the zone]:LBA: ' \
        '--data[The file]:FILE:_files' \
        '--block[Bytes of a block]:B: ' \
        '--queue[The submission queue, from 0 to 65535]:Q: ' \
        '--cid[The command identifier, from 0 to 65535, which the completion repeats]:C: ' \
        '--into[The command file to whose end the line is added, in place of printing it]:COMMANDS:_files' \
        '(- *)--help[Print help]'
}

_zscli_entry_write() {
    _arguments \
        '--lba[The logical block address of the first block]:LBA: ' \
        '--data[The file]:FILE:_files' \
        '--block[Bytes of a block]:B: ' \
        '--queue[The submission queue, from 0 to 65535]:Q: ' \
        '--cid[The command identifier, from 0 to 65535, which the completion repeats]:C: ' \
        '--into[The command file to whose end the line is added, in place of printing it]:COMMANDS:_files' \
        '(- *)--help[Print help]'
}

_zscli_entry_read() {
    _arguments \
        '--lba[The logical block address of the first block]:LBA: ' \
        '--blocks[The number of blocks, from 1 to 65536]:N: ' \
        '--queue[The submission queue, from 0 to 65535]:Q: ' \
        '--cid[The command identifier, from 0 to 65535, which the completion repeats]:C: ' \
        '--into[The command file to whose end the line is added, in place of printing it]:COMMANDS:_files' \
        '(- *)--help[Print help]'
}

_zscli_entry_open() {
    _arguments \
        '--lba[The lowest logical block address of the zone]:LBA: ' \
        '--all[All zones that Select All takes for the action]' \
        '--queue[The submission queue, from 0 to 65535]:Q: ' \
        '--cid[The command identifier, from 0 to 65535, which the completion repeats]:C: ' \
        '--into[The command file to whose end the line is added, in place of printing it]:COMMANDS:_files' \
        '(- *)--help[Print help]'
}

_zscli_entry_close() {
    _arguments \
        '--lba[The lowest logical block address of the zone]:LBA: ' \
        '--all[All zones that Select All takes for the action]' \
        '--queue[The submission queue, from 0 to 65535]:Q: ' \
        '--cid[The command identifier, from 0 to 65535, which the completion repeats]:C: ' \
        '--into[The command file to whose end the line is added, in place of printing it]:COMMANDS:_files' \
        '(- *)--help[Print help]'
}

_zscli_entry_finish() {
    _arguments \
        '--lba[The lowest logical block address of the zone]:LBA: ' \
        '--all[All zones that Select All takes for the action]' \
        '--queue[The submission queue, from 0 to 65535]:Q: ' \
        '--cid[The command identifier, from 0 to 65535, which the completion repeats]:C: ' \
        '--into[The command file to whose end the line is added, in place of printing it]:COMMANDS:_files' \
        '(- *)--help[Print help]'
}

_zscli_entry_reset() {
    _arguments \
        '--lba[The lowest logical block address of the zone]:LBA: ' \
        '--all[All zones that Select All takes for the action]' \
        '--queue[The submission queue, from 0 to 65535]:Q: ' \
        '--cid[The command identifier, from 0 to 65535, which the completion repeats]:C: ' \
        '--into[The command file to whose end the line is added, in place of printing it]:COMMANDS:_files' \
        '(- *)--help[Print help]'
}

_zscli_entry_offline() {
    _arguments \
        '--lba[The lowest logical block address of the zone]:LBA: ' \
        '--all[All zones that Select All takes for the action]' \
        '--queue[The submission queue, from 0 to 65535]:Q: ' \
        '--cid[The command identifier, from 0 to 65535, which the completion repeats]:C: ' \
        '--into[The command file to whose end the line is added, in place of printing it]:COMMANDS:_files' \
        '(- *)--help[Print help]'
}

_zscli_entry_report() {
    _arguments \
        '--lba[A logical block address of the first zone]:LBA: ' \
        '--state[The zones that are reported]:STATE:(all empty implicit explicit closed full readonly offline)' \
        '--partial[Tell the number of the descriptors that are given, and not of all zones that match]' \
        '--dwords[The dwords of the report, from 1 to 32768]:D: ' \
        '--queue[The submission queue, from 0 to 65535]:Q: ' \
        '--cid[The command identifier, from 0 to 65535, which the completion repeats]:C: ' \
        '--into[The command file to whose end the line is added, in place of printing it]:COMMANDS:_files' \
        '(- *)--help[Print help]'
}

_zscli_entry_load() {
    _arguments \
        '--slot[The slot of the program, from 0 to 7]:S: ' \
        '--program[The program, as instruction bytes]:FILE:_files' \
        '--emit[The most bytes that may be emitted for a block, two for each record counted]:E: ' \
        '--queue[The submission queue, from 0 to 65535]:Q: ' \
        '--cid[The command identifier, from 0 to 65535, which the completion repeats]:C: ' \
        '--into[The command file to whose end the line is added, in place of printing it]:COMMANDS:_files' \
        '(- *)--help[Print help]'
}

_zscli_entry_run() {
    _arguments \
        '--slot[The slot of the program, from 0 to 7]:S: ' \
        '--from[The logical block address of the first block that the program runs on]:LBA: ' \
        '--blocks[The number of these blocks, from 1 to 65536]:N: ' \
        '--to[The lowest logical block address of the zone that is appended to]:LBA: ' \
        '--argument[The argument of the run, a number that the program is told]:A: ' \
        '--queue[The submission queue, from 0 to 65535]:Q: ' \
        '--cid[The command identifier, from 0 to 65535, which the completion repeats]:C: ' \
        '--into[The command file to whose end the line is added, in place of printing it]:COMMANDS:_files' \
        '(- *)--help[Print help]'
}

_zscli_entry_result() {
    _arguments \
        '--slot[The slot of the program, from 0 to 7]:S: ' \
        '--queue[The submission queue, from 0 to 65535]:Q: ' \
        '--cid[The command identifier, from 0 to 65535, which the completion repeats]:C: ' \
        '--into[The command file to whose end the line is added, in place of printing it]:COMMANDS:_files' \
        '(- *)--help[Print help]'
}

_zscli_entries() {
    _arguments \
        ':FILE:_files' \
        '--image[The image whose blocks the lines speak of, in place of --block]:IMAGE:_files' \
        '--block[Bytes of a block]:B: ' \
        '(- *)--help[Print help]'
}

_zscli_explain() {
    _arguments \
        ':FILE:_files' \
        '--commands[The command file that `exec` was given]:COMMANDS:_files' \
        '--program[The program whose results are explained by PROGRAM.linked]:PROGRAM:_files' \
        '--json[Print each as a JSON object]' \
        '(- *)--help[Print help]'
}

_zscli_demo() {
    _arguments \
        '--hex[Print the bytes of each entry and of each completion too]' \
        '(- *)--help[Print help]'
}

_zscli "$@"
