#!/bin/sh
# Installs into empty folders by install.sh, and tries what is there. ZSCLI names the program: by default the one that the gate proves and
# builds. The library for C and the target are made of the crates' archives if these are built and new; else stubs, which only link, are in
# their place. What a tool is missing for is skipped, and said. The last line is 'N passed, M failed'.
set -u
here=$(cd "$(dirname "$0")" && pwd)
top=$(cd "$here/../.." && pwd)
work=$(mktemp -d)
trap 'rm -rf "$work"' EXIT
trap 'exit 1' HUP INT TERM
umask 022
export LC_ALL=C PYTHONDONTWRITEBYTECODE=1
unset DESTDIR PIFNJARL_ZSCLI PYTHONPATH
passed=0
failed=0

# a test by its name: the command after it ends with status 0
try() {
    name=$1
    shift
    if "$@" > "$work/out" 2>&1; then
        passed=$((passed + 1))
    else
        failed=$((failed + 1))
        echo "failed: $name"
        cat "$work/out"
    fi
}

# a test that needs a tool: try_with TOOL NAME COMMAND..
try_with() {
    if command -v "$1" > /dev/null; then
        shift
        try "$@"
    else
        echo "skipped, without $1: $2"
    fi
}

# ---- what is installed

# is the archive of a crate built, and no source newer?
is_new() {
    archive=$top/crates/$1/out/lib$1.a
    [ -e "$archive" ] && command -v rt > /dev/null &&
        [ -z "$(find "$top/crates" "$top/crates.txt" -name out -prune -o \
            \( -name '*.rt' -o -name '*.antt' -o -name crates.txt \) -newer "$archive" -print)" ]
}

# functions of these names that do nothing
stub() {
    printf 'long %s(void) { return 0; }\n' "$@" > "$work/stub.c"
    ${CC:-gcc} -c "$work/stub.c" -o "$work/stub.o"
}

make_library() {
    if is_new device_library; then
        "$top/c/library.sh" "$work/made"
    else
        echo 'the library for C is a stub, as its crate is not built'
        library=stub
        stub pifnjarl_open_path pifnjarl_do pifnjarl_turns pifnjarl_lowest_run pifnjarl_save_path pifnjarl_close pifnjarl_durable_open pifnjarl_durable_close &&
            ar rcs "$work/made/libpifnjarl.a" "$work/stub.o"
    fi
}

make_target() {
    if is_new device_library; then
        "$top/target/build.sh" "$work/made"
    else
        echo 'the target is a stub, as its crate is not built'
        target=stub
        stub pifnjarl_handle_bytes pifnjarl_handle_open pifnjarl_handle_call pifnjarl_handle_end pifnjarl_words &&
            ${CC:-gcc} -std=c11 -I "$top/c" "$top/target/nvme_tcp.c" "$top/target/loop.c" \
                "$top/target/operations.c" "$top/target/lines.c" "$top/target/address.c" "$top/target/image_uuid.c" \
                "$top/c/image_file.c" "$top/c/kept_file.c" "$work/stub.o" -o "$work/made/nvme_tcp"
    fi
}

export ZSCLI="${ZSCLI:-$top/crates/zscli/out/zscli}"
library=real
target=real
mkdir "$work/made"
[ -n "${LIBPIFNJARL-}" ] || make_library || exit 1
[ -n "${NVME_TCP_TARGET-}" ] || make_target || exit 1
export LIBPIFNJARL="${LIBPIFNJARL:-$work/made/libpifnjarl.a}" NVME_TCP_TARGET="${NVME_TCP_TARGET:-$work/made/nvme_tcp}"

# ---- installing

# the status of install.sh with these words
status_of() {
    status=0
    "$top/install.sh" "$@" > "$work/said" 2>&1 || status=$?
    cat "$work/said"
}

# without a file it installs nothing, and prints the command that makes it: lacks VARIABLE COMMAND
lacks() {
    (
        export "$1=$work/nothing"
        status_of --prefix "$work/none"
        [ "$status" = 1 ] && grep -qF "$2" "$work/said" && grep -q 'nothing was installed' "$work/said" && [ ! -e "$work/none" ]
    )
}

refuses_words() {
    status_of "$@"
    [ "$status" = 2 ] && [ ! -e "$work/none" ]
}

# the files below ROOT and FOLDER are those that --list prints: is_tree ROOT FOLDER WORDS..
is_tree() {
    root=$1
    folder=$2
    shift 2
    DESTDIR=$root "$top/install.sh" --list "$@" | sort > "$work/listed"
    find "$root$folder" ! -type d | sed "s|^$root||" | sort | diff "$work/listed" -
}

has_modes() {
    find "$work/a" \( -type f -path '*/bin/*' ! -perm 755 -o -type f ! -path '*/bin/*' ! -perm 644 -o -type d ! -perm 755 \) > "$work/modes"
    cat "$work/modes"
    [ ! -s "$work/modes" ]
}

names_no_folder_of_the_build() {
    ! grep -rlI -e "$work" -e "$top" -e '@[a-z]*@' "$work/staged"
}

try 'without the program' lacks ZSCLI './zscli --help'
try 'without the library' lacks LIBPIFNJARL 'c/library.sh c/out'
try 'without the target' lacks NVME_TCP_TARGET 'target/build.sh target/out'
try 'a relative prefix is refused' refuses_words --prefix none
try 'a prefix with a blank is refused' refuses_words --prefix "$work/no ne"
try 'a missing prefix is refused' refuses_words --prefix
try 'a wrong word is refused' refuses_words --perfix="$work/none"
# where the module goes that has this prefix, if python3 looks for modules where Debian's does
module_goes() {
    mkdir -p "$work/debian"
    printf '#!/bin/sh\nprintf "%%s\\n" /usr/local/lib/python3.11/dist-packages /usr/lib/python3/dist-packages\n' > "$work/debian/python3"
    chmod 755 "$work/debian/python3"
    PATH=$work/debian:$PATH "$top/install.sh" --list --prefix "$1" | grep -Fx "$2/pifnjarl.py"
}

try 'the module below /usr/local' module_goes /usr/local /usr/local/lib/python3.11/dist-packages
try 'the module below /usr' module_goes /usr /usr/lib/python3/dist-packages
try 'the module elsewhere' module_goes /opt/pifnjarl /opt/pifnjarl/lib/python3/dist-packages
try 'install' "$top/install.sh" --prefix "$work/a"
try 'the tree is the listed one' is_tree "" "$work/a" --prefix "$work/a"
try 'again, over it' "$top/install.sh" --prefix="$work/a"
try 'modes' has_modes
set -- --prefix /usr --libdir /usr/lib/x86_64-linux-gnu --pythondir /usr/lib/python3/dist-packages --zshdir=/usr/share/zsh/vendor-completions
try 'install with DESTDIR' env DESTDIR="$work/staged" "$top/install.sh" "$@"
try 'the tree with DESTDIR' is_tree "$work/staged" / "$@"
try 'a package names its own places' names_no_folder_of_the_build

# ---- the programs

a=$work/a
export PATH="$a/bin:$PATH"
cd "$work" || exit 1

version_is_one() {
    version=$(zscli --version)
    version=${version#zscli }
    grep -qx "version = \"$version\"" "$top/python/pyproject.toml" && grep -qx "Version: $version" "$a/lib/pkgconfig/pifnjarl.pc"
}

formats() {
    "$a/bin/zscli" format zoned.img --block 512 --zones 4 --size 64 --capacity 64 --open 2 --active 3 && zscli zones zoned.img
}

target_helps() {
    [ "$("$a/bin/pifnjarl-nvme-tcp" --help)" = 'usage: pifnjarl-nvme-tcp IMAGE [--memory] [--listen ADDRESS:PORT] [-v]' ]
}

# serves until it is ended
target_serves() {
    pifnjarl-nvme-tcp zoned.img --listen 127.0.0.1:0 > serving &
    serving=$!
    for second in 1 2 3 4 5 6 7 8 9 10; do
        [ "$(grep -c -e '^listening on 127.0.0.1:[1-9]' -e '^nqn.2014-08.org.nvmexpress:uuid:' serving)" != 2 ] || break
        [ "$second" = 10 ] || sleep 1
    done
    kill "$serving" && wait "$serving" && cat serving && [ "$second" != 10 ]
}

# the unit, which names a program that is there and a page of the manual that is there
unit_fits() {
    unit=$a/lib/systemd/system/pifnjarl-nvme-tcp@.service
    program=$(sed -n 's/^ExecStart=\([^ ]*\) .*/\1/p' "$unit")
    [ -x "$program" ] && grep -q '^Documentation=man:pifnjarl-nvme-tcp(8)$' "$unit" && [ -e "$a/share/man/man8/pifnjarl-nvme-tcp.8" ]
}

# systemd-analyze can look at a unit, as it can't in some containers
looks_at_units() {
    printf '[Service]\nExecStart=/bin/true\n' > "$work/any.service"
    systemd-analyze verify --man=no "$work/any.service" > "$work/out" 2>&1
}

unit_is_valid() {
    systemd-analyze verify --man=no "$a/lib/systemd/system/pifnjarl-nvme-tcp@.service" > verified 2>&1 || return 1
    cat verified
    [ ! -s verified ]
}

# what the service may do besides is no more than 1.1 of 10, as systemd-analyze counts it
unit_is_shut_in() {
    systemd-analyze security --no-pager --offline=true --threshold=11 "$a/lib/systemd/system/pifnjarl-nvme-tcp@.service" > exposed 2>&1 || {
        grep -v '^✓' exposed
        return 1
    }
}

try 'one version' version_is_one
try 'zscli runs' formats
try 'the target runs' target_helps
[ "$target" = stub ] || try 'the target serves' target_serves
try 'the service fits' unit_fits
if looks_at_units; then
    try 'the service is valid' unit_is_valid
else
    echo "skipped, without a systemd-analyze that looks at units: the service is valid"
fi
if systemd-analyze security --no-pager --offline=true "$work/any.service" > "$work/out" 2>&1; then
    try 'the service is shut in' unit_is_shut_in
else
    echo "skipped, without a systemd-analyze that counts what units may do: the service is shut in"
fi

# ---- pages and completions

page_parses() {
    groff -man -Tutf8 -ww "$a/share/man/$1" > page 2> warnings
    cat warnings
    [ -s page ] && [ ! -s warnings ]
}

# what bash completes of a line's words
completed() {
    bash -c '. "$0"; shift 0; COMP_WORDS=("$@"); COMP_CWORD=$(($# - 1)); _zscli; echo "${COMPREPLY[*]}"' \
        "$a/share/bash-completion/completions/zscli" "$@"
}

bash_completes() {
    : > one.img
    [ "$(completed zscli rep)" = report ] && [ "$(completed zscli entry ap)" = append ] &&
        [ "$(completed zscli entry report --state ex)" = explicit ] && [ "$(completed zscli zones one)" = one.img ]
}

fish_completes() {
    fish=$a/share/fish/vendor_completions.d/zscli.fish
    fish -n "$fish" && [ "$(fish -c "source $fish; complete -C 'zscli entry ap'" | cut -f 1)" = append ]
}

try_with groff 'zscli.1' page_parses man1/zscli.1
try_with groff 'pifnjarl-nvme-tcp.8' page_parses man8/pifnjarl-nvme-tcp.8
try_with man 'man finds the page' env MANPATH="$a/share/man" MANPAGER=cat man zscli
try_with bash 'bash completes' bash_completes
try_with zsh 'the completion for zsh' zsh -n "$a/share/zsh/site-functions/_zscli"
try_with fish 'fish completes' fish_completes

# ---- the libraries and the module

# the flags of pkg-config, or what its file says: words, of which each is one of the compiler
flags() {
    if command -v pkg-config > /dev/null; then
        PKG_CONFIG_PATH=$a/lib/pkgconfig pkg-config --cflags --libs pifnjarl
    else
        sed -n 's/^Cflags: //p; s/^Libs: //p' "$a/lib/pkgconfig/pifnjarl.pc" | sed "s|\${includedir}|$a/include|; s|\${libdir}|$a/lib|"
    fi
}

# a program with a device in memory and one in a file
links() {
    cat > both.c <<'C'
#include <pifnjarl_device.h>
#include <pifnjarl_durable.h>
int main(int words, char **word)
{
    struct pifnjarl_device *device;
    struct pifnjarl_durable *durable;
    return words > 1 && pifnjarl_open_path(word[1], &device) == PIFNJARL_DONE && pifnjarl_durable_open(word[1], &durable) == 0;
}
C
    # shellcheck disable=SC2046
    ${CC:-gcc} -std=c11 -Wall -Wextra -Werror -o both both.c $(flags) && ./both
}

example_runs() {
    # shellcheck disable=SC2046
    ${CC:-gcc} -std=c11 -o append_and_read "$top/c/append_and_read.c" $(flags) &&
        ./append_and_read "$top/examples/empty.img" saved.img | diff "$top/c/append_and_read.out" -
}

filter_is_accepted() {
    sed 's/#include "pifnjarl.h"/#include <pifnjarl_bpf.h>/' "$top/examples/filter.c" > filter.c
    clang -target bpf -mcpu=v3 -O2 -g -Wall -Werror -I "$a/include" -c filter.c -o filter.o &&
        zscli link filter.o --block 512 -o filter.bin && zscli verify filter.bin --block 512 --emit 66
}

# the module in a folder and zscli on the path: appends to the device and reads
module_works() {
    cat > device.py <<'PYTHON'
import sys
import pifnjarl
assert pifnjarl.__file__.startswith(sys.argv[1]), pifnjarl.__file__
assert pifnjarl.zscli() == sys.argv[2] + "/bin/zscli", pifnjarl.zscli()
pifnjarl.format_image("module.img", block=512, zones=4, zone_size=64)
with pifnjarl.Device("module.img") as device:
    assert device.read(device.append(64, bytes(512)), blocks=1) == bytes(512)
    assert device.query(64, [("byte", "u8")], "byte == 0", count=True).count == 512
PYTHON
    rm -f module.img
    "$@" device.py "$work" "$a"
}

pip_installs() {
    cp -R "$top/python" python
    venv/bin/python -m pip install --no-build-isolation --no-index --disable-pip-version-check -q ./python && module_works venv/bin/python &&
        venv/bin/python -m pip uninstall -q -y pifnjarl
}

try 'a program links' links
[ "$library" = stub ] || try 'an example of the library' example_runs
try_with clang 'a filter' filter_is_accepted
try 'the examples in docstrings' python3 -m doctest "$top/python/package.py" "$top/tools/pages/completions.py"
try 'the module' module_works env PYTHONPATH="$a/lib/python3/dist-packages" python3
if python3 -m venv --system-site-packages venv > /dev/null 2>&1; then
    try 'pip installs the module' pip_installs
else
    echo "skipped, without python3-venv: pip installs the module"
fi

# ---- the end

# what was changed since, and what others put there, is left
others_are_left() {
    echo other > "$a/share/doc/pifnjarl/other"
    echo changed >> "$a/include/pifnjarl_entry.h"
    status_of --prefix "$a" --uninstall
    [ "$status" = 0 ] && [ "$(cat "$work/said")" = "install.sh: $a/include/pifnjarl_entry.h was changed since, and is left" ] &&
        [ "$(find "$a" ! -type d | sort)" = "$(printf '%s\n' "$a/include/pifnjarl_entry.h" "$a/share/doc/pifnjarl/other")" ]
}

nothing_is_left() {
    "$top/install.sh" --prefix "$a" && "$top/install.sh" --prefix "$a" --uninstall
    rm "$a/share/doc/pifnjarl/other"
    find "$a" ! -type d
    [ -z "$(find "$a" ! -type d)" ]
}

nothing_to_uninstall() {
    status_of --prefix "$a" --uninstall
    [ "$status" = 1 ] && grep -qF "there is no $a/share/pifnjarl/installed" "$work/said"
}

try 'uninstall leaves the files of others' others_are_left
try 'uninstall' nothing_is_left
try 'there is nothing to uninstall' nothing_to_uninstall
echo "$passed passed, $failed failed"
[ "$failed" = 0 ]
