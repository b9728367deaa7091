# Sourced with `here` set to this folder and `program` to a C program in it: builds that with DPDK as `$work/dpdk`, in a
# folder that is removed at the end, and brings in `least`.
. "$here/least.sh"
work=$(mktemp -d)
trap 'rm -rf "$work"' EXIT
cc -O2 -march=native -o "$work/dpdk" "$here/$program.c" $(pkg-config --cflags --libs libdpdk)
