# Made by tools/pages/make.sh of the help texts: completes the words of zscli in bash.
_zscli() {
    local word=${COMP_WORDS[COMP_CWORD]} before=${COMP_WORDS[COMP_CWORD-1]} words=zscli commands="" options=""
    case "$before" in
        --color) COMPREPLY=($(compgen -W "auto always never" -- "$word")); return ;;
        --state) COMPREPLY=($(compgen -W "all empty implicit explicit closed full readonly offline" -- "$word")); return ;;
        --commands | --data | --image | --into | --layout | --output | --program | --salvage) COMPREPLY=($(compgen -f -- "$word")); return ;;
        --active | --argument | --block | --blocks | --by | --capacity | --cid | --dwords | --emit | --from | --fuel | --function | --greatest | --guard-at | --lba | --least | --open | --part | --profile | --queue | --select | --size | --slot | --sum | --to | --where | --zone | --zones) return ;;
    esac
    [ "$COMP_CWORD" -gt 1 ] && words+=" ${COMP_WORDS[1]}"
    case "${COMP_WORDS[1]}" in
        "entry") [ "$COMP_CWORD" -gt 2 ] && words+=" ${COMP_WORDS[2]}" ;;
    esac
    case "$words" in
        "zscli") commands="format zones report upgrade exec query serve fold asm disasm link trace verify unpack entry entries explain demo" options="--help --version" ;;
        "zscli format") commands="" options="--block --zones --size --capacity --open --active --force --help" ;;
        "zscli zones") commands="" options="--help" ;;
        "zscli report") commands="" options="--json --map --color --help" ;;
        "zscli upgrade") commands="" options="--help" ;;
        "zscli exec") commands="" options="--profile --fail --stop --words --help" ;;
        "zscli query") commands="" options="--block --zone --blocks --layout --where --argument --select --count --sum --least --greatest --by --csv --json --raw --into --explain --program --part --help" ;;
        "zscli serve") commands="" options="--frames --drain --durable --help" ;;
        "zscli fold") commands="" options="--salvage --help" ;;
        "zscli asm") commands="" options="--help" ;;
        "zscli disasm") commands="" options="--slots --help" ;;
        "zscli link") commands="" options="--block --emit --profile --output --function --cut-loops --strict --guard-at --silent-guards --verbose --help" ;;
        "zscli trace") commands="" options="--emit --argument --fuel --registers --help" ;;
        "zscli verify") commands="" options="--block --emit --profile --explain --facts --json --help" ;;
        "zscli unpack") commands="" options="--block --json --help" ;;
        "zscli entry") commands="append write read open close finish reset offline report load run result" options="--help" ;;
        "zscli entry append") commands="" options="--lba --data --block --queue --cid --into --help" ;;
        "zscli entry write") commands="" options="--lba --data --block --queue --cid --into --help" ;;
        "zscli entry read") commands="" options="--lba --blocks --queue --cid --into --help" ;;
        "zscli entry open") commands="" options="--lba --all --queue --cid --into --help" ;;
        "zscli entry close") commands="" options="--lba --all --queue --cid --into --help" ;;
        "zscli entry finish") commands="" options="--lba --all --queue --cid --into --help" ;;
        "zscli entry reset") commands="" options="--lba --all --queue --cid --into --help" ;;
        "zscli entry offline") commands="" options="--lba --all --queue --cid --into --help" ;;
        "zscli entry report") commands="" options="--lba --state --partial --dwords --queue --cid --into --help" ;;
        "zscli entry load") commands="" options="--slot --program --emit --queue --cid --into --help" ;;
        "zscli entry run") commands="" options="--slot --from --blocks --to --argument --queue --cid --into --help" ;;
        "zscli entry result") commands="" options="--slot --queue --cid --into --help" ;;
        "zscli entries") commands="" options="--image --block --help" ;;
        "zscli explain") commands="" options="--commands --program --json --help" ;;
        "zscli demo") commands="" options="--hex --help" ;;
    esac
    case "$word" in
        -*) COMPREPLY=($(compgen -W "$options" -- "$word")) ;;
        *) if [ -n "$commands" ]; then COMPREPLY=($(compgen -W "$commands" -- "$word")); else COMPREPLY=($(compgen -f -- "$word")); fi ;;
    esac
}
complete -o filenames -F _zscli zscli
