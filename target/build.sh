#!/bin/sh
# Makes the target, FOLDER/nvme_tcp, with the library for C, proving and building crates/device_library first where a source is newer:
#   target/build.sh FOLDER [FLAG..]      the flags are for the C compiler
set -eu
unset CDPATH
here=$(cd "$(dirname "$0")" && pwd)
folder=$1
shift
library=$(mktemp -d)
trap 'rm -rf "$library"' EXIT
"$here/../c/library.sh" "$library" "$@"
mkdir -p "$folder"
${CC:-gcc} -std=c11 -O2 -Wall -Wextra -Werror "$@" -I "$here/../c" "$here/nvme_tcp.c" "$here/loop.c" "$here/operations.c" "$here/lines.c" "$here/address.c" \
    "$here/image_uuid.c" "$library/libpifnjarl.a" -o "$folder/nvme_tcp"
