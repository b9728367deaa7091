#!/bin/sh
# Makes the library, FOLDER/libpifnjarl.a, proving and building crates/device_library first where a source is newer:
#   c/library.sh FOLDER [FLAG..]      the flags are for the C compiler
set -eu
unset CDPATH
here=$(cd "$(dirname "$0")" && pwd)
folder=${1:?a folder for libpifnjarl.a is wanted}
shift
kit=$(dirname "$(dirname "$(realpath "$(command -v rt)")")")
mkdir -p "$folder"
folder=$(cd "$folder" && pwd)
parts=$(mktemp -d)
trap 'rm -rf "$parts"' EXIT

built=$("$here/../tools/gate/built.sh" device_library)
(cd "$parts" && ar x "$built" && ar x "$kit/c/liblibc_c.a")
for source in pifnjarl_device image_file pifnjarl_durable kept_file; do
    ${CC:-gcc} -std=c11 -O2 -Wall -Wextra -Werror "$@" -c "$here/$source.c" -o "$parts/$source.o"
done
rm -f "$folder/libpifnjarl.a"
ar rcs "$folder/libpifnjarl.a" "$parts"/*.o
