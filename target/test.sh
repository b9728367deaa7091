#!/bin/sh
# Makes the target with sanitizers, tries what makes its operations by try_operations.c, plays 2000 worlds for its loop (worlds.sh), and tries
# the target by test_nvme_tcp.py; ZSCLI names the program that makes its images. The last line is 'N passed, M failed'.
set -u
here=$(cd "$(dirname "$0")" && pwd)
work=$(mktemp -d)
trap 'rm -rf "$work"' EXIT

if ! "$here/build.sh" "$work" -O1 -g -fsanitize=address,undefined -fno-sanitize-recover=all; then
    echo "0 passed, 1 failed"
    exit 1
fi
if ! { ${CC:-gcc} -std=c11 -O1 -g -Wall -Wextra -Werror -fsanitize=address,undefined -fno-sanitize-recover=all -I "$here/../c" \
        "$here/try_operations.c" "$here/operations.c" "$here/lines.c" "$here/address.c" "$here/../c/image_file.c" -o "$work/try_operations" && "$work/try_operations"; }; then
    echo "0 passed, 1 failed"
    exit 1
fi
if ! "$here/worlds.sh"; then
    echo "0 passed, 1 failed"
    exit 1
fi
NVME_TCP_TARGET=$work/nvme_tcp python3 -B "$here/test_nvme_tcp.py"
