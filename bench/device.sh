# Sourced with `here` set to this folder and `work` to one for what is made: makes `device.c` with the library for C, which is proved and
# built first where a source is newer, and says where it is by `bench`.
"$here/../c/library.sh" "$work"
bench=$work/device
${CC:-cc} -std=c11 -O2 -Wall -Wextra -Werror -o "$bench" "$here/device.c" "$work/libpifnjarl.a"
