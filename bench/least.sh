# Sourced. `least`: the least number at the front of a line of what a command prints, in eight launches: where the system
# puts a program's stack decides how fast it is.
least() {
    line=$1
    shift
    for _ in 1 2 3 4 5 6 7 8; do "$@" | sed -n "${line}p"; done | sort -n | head -n 1 | sed 's/ .*//'
}
