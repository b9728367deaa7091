#!/bin/sh
# Installs what was built, and builds nothing:
#
#   ./install.sh [--prefix DIR]         installs below DIR, /usr/local where none is named
#   ./install.sh --list [..]            prints the files that it would install
#   ./install.sh --uninstall [--prefix DIR]
#                                       removes those that it installed, unless they were changed: DIR/share/pifnjarl/installed lists them
#                                       with their checksums
#
# With DESTDIR in the environment, files go below DESTDIR and still name DIR, as for a package, and no list is written. Some places have
# options of their own:
#
#   --libdir FOLDER       the library and pkgconfig/pifnjarl.pc, by default DIR/lib
#   --pythondir FOLDER    the Python modules, by default the first folder below DIR/lib where python3 looks for modules, or, if there is
#                         none or with DESTDIR, DIR/lib/python3/dist-packages
#   --zshdir FOLDER       the completion for zsh, by default DIR/share/zsh/site-functions
#
# It takes these files, or those that the variables name:
#
#   ZSCLI            crates/zscli/out/zscli          built by ./zscli --help, or by the gate
#   LIBPIFNJARL      c/out/libpifnjarl.a    built by c/library.sh c/out
#   NVME_TCP_TARGET  target/out/nvme_tcp    built by target/build.sh target/out
#
# If one is missing, or older than its sources, it prints the command that builds it, and installs nothing.
set -eu
unset CDPATH
umask 022
top=$(cd "$(dirname "$0")" && pwd)

fail() {
    echo "install.sh: $1" >&2
    exit "${2:-1}"
}

prefix=/usr/local
libraries=
python=
zsh=
doing=install
while [ $# -gt 0 ]; do
    case $1 in
    --prefix=* | --libdir=* | --pythondir=* | --zshdir=*)
        word=$1
        shift
        set -- "${word%%=*}" "${word#*=}" "$@"
        continue
        ;;
    --prefix | --libdir | --pythondir | --zshdir)
        [ $# -gt 1 ] || fail "$1: a folder is wanted" 2
        case $2 in
        *[!A-Za-z0-9/._+-]*) fail "$1: '$2' has a character other than letters, digits and / . _ + -" 2 ;;
        /*) ;;
        *) fail "$1: '$2' is not an absolute path" 2 ;;
        esac
        case $1 in
        --prefix) prefix=${2%/} ;;
        --libdir) libraries=${2%/} ;;
        --pythondir) python=${2%/} ;;
        --zshdir) zsh=${2%/} ;;
        esac
        shift
        ;;
    --list) doing=list ;;
    --uninstall) doing=uninstall ;;
    --help)
        sed -n '2,/^set /s/^# \{0,1\}//p' "$0"
        exit
        ;;
    *) fail "'$1' is none of --prefix, --libdir, --pythondir, --zshdir, --list, --uninstall and --help" 2 ;;
    esac
    shift
done

# the first folder below DIR/lib where python3 looks for modules
python_folder() {
    python3 -I -c 'import site; print(*site.getsitepackages(), site.getusersitepackages(), sep="\n")' 2> /dev/null |
        while read -r folder; do
            case $folder in
            "$prefix"/lib/*)
                echo "$folder"
                break
                ;;
            esac
        done
}

libraries=${libraries:-$prefix/lib}
[ -n "$python" ] || [ -n "${DESTDIR-}" ] || python=$(python_folder)
python=${python:-$prefix/lib/python3/dist-packages}
list=$prefix/share/pifnjarl/installed
zsh=${zsh:-$prefix/share/zsh/site-functions}
program=${ZSCLI:-$top/crates/zscli/out/zscli}
library=${LIBPIFNJARL:-$top/c/out/libpifnjarl.a}
target=${NVME_TCP_TARGET:-$top/target/out/nvme_tcp}
version=$(sed -n 's/^const VERSION: &str = "\(.*\)";$/\1/p' "$top/crates/zscli/src/commands.rt")
[ -n "$version" ] || fail "crates/zscli/src/commands.rt has no version"

# all files, by `file MODE SOURCE PLACE`; a source that ends with .in has names in @ that are filled in
tree() {
    "$1" 755 "$program" "$prefix/bin/zscli"
    "$1" 755 "$target" "$prefix/bin/pifnjarl-nvme-tcp"
    "$1" 644 "$library" "$libraries/libpifnjarl.a"
    "$1" 644 "$top/c/pifnjarl.pc.in" "$libraries/pkgconfig/pifnjarl.pc"
    "$1" 644 "$top/c/pifnjarl_device.h" "$prefix/include/pifnjarl_device.h"
    "$1" 644 "$top/c/pifnjarl_durable.h" "$prefix/include/pifnjarl_durable.h"
    "$1" 644 "$top/c/pifnjarl_entry.h" "$prefix/include/pifnjarl_entry.h"
    "$1" 644 "$top/examples/pifnjarl_bpf.h" "$prefix/include/pifnjarl_bpf.h"
    "$1" 644 "$top/docs/zscli.1" "$prefix/share/man/man1/zscli.1"
    "$1" 644 "$top/target/pifnjarl-nvme-tcp.8" "$prefix/share/man/man8/pifnjarl-nvme-tcp.8"
    "$1" 644 "$top/docs/zscli.bash" "$prefix/share/bash-completion/completions/zscli"
    "$1" 644 "$top/docs/zscli.zsh" "$zsh/_zscli"
    "$1" 644 "$top/docs/zscli.fish" "$prefix/share/fish/vendor_completions.d/zscli.fish"
    "$1" 644 "$top/python/pifnjarl.py" "$python/pifnjarl.py"
    "$1" 644 "$top/python/pifnjarl_query.py" "$python/pifnjarl_query.py"
    "$1" 644 "$top/python/pifnjarl_linux.py" "$python/pifnjarl_linux.py"
    "$1" 644 "$top/target/pifnjarl-nvme-tcp@.service.in" "$prefix/lib/systemd/system/pifnjarl-nvme-tcp@.service"
    "$1" 644 "$top/target/pifnjarl.sysusers" "$prefix/lib/sysusers.d/pifnjarl.conf"
    "$1" 644 "$top/target/pifnjarl.tmpfiles" "$prefix/lib/tmpfiles.d/pifnjarl.conf"
    "$1" 644 "$top/LICENSE-MIT" "$prefix/share/doc/pifnjarl/LICENSE-MIT"
    "$1" 644 "$top/LICENSE-APACHE" "$prefix/share/doc/pifnjarl/LICENSE-APACHE"
}

# ---- what is built

# a source in these folders that is newer than a file
newer() {
    file=$1
    shift
    find "$@" -name out -prune -o \( -name '*.rt' -o -name '*.antt' -o -name crates.txt -o -name '*.c' -o -name '*.h' \) -newer "$file" -print |
        head -n 1
}

# says what is wrong with a file that is built, and by which command it is made: built NAMED FILE COMMAND SOURCES..
built() {
    named=$1
    file=$2
    command=$3
    shift 3
    why=
    if [ ! -f "$file" ] || [ ! -r "$file" ]; then
        why="there is no file $file"
    elif [ -z "$named" ]; then
        source=$(newer "$file" "$@")
        [ -z "$source" ] || why="$file is older than $source"
    fi
    if [ -n "$why" ]; then
        echo "install.sh: $why" >&2
        echo "    $command" >&2
        lacking=yes
    fi
}

look() {
    lacking=
    built "${ZSCLI-}" "$program" "./zscli --help > /dev/null      # proves and builds it; ZSCLI can name another" \
        "$top/crates" "$top/crates.txt"
    built "${LIBPIFNJARL-}" "$library" "c/library.sh c/out      # LIBPIFNJARL can name another" \
        "$top/crates" "$top/crates.txt" "$top/c"
    built "${NVME_TCP_TARGET-}" "$target" "target/build.sh target/out      # NVME_TCP_TARGET can name another" \
        "$top/crates" "$top/crates.txt" "$top/c" "$top/target"
    [ -z "$lacking" ] || fail "nothing was installed"
}

# ---- the files

print() {
    echo "$3"
}

# the checksum of a file that is staged, and its place, as sha256sum prints them
sum() {
    (cd "$work" && sha256sum "./${3#/}" | sed 's|  \./|  /|')
}

# removes a file that was installed with this checksum
remove() {
    [ -e "$2" ] || return 0
    if [ "$(sha256sum < "$2")" = "$1  -" ]; then
        rm "$2"
    else
        echo "install.sh: $2 was changed since, and is left" >&2
    fi
}

uninstall() {
    [ -z "${DESTDIR-}" ] || fail "--uninstall is of no tree that was made with DESTDIR" 2
    [ -f "$list" ] || fail "there is no $list, so nothing that install.sh installed"
    while read -r checksum place; do
        remove "$checksum" "$place"
    done < "$list"
    rm "$list"
    rmdir "$prefix/share/doc/pifnjarl" "$prefix/share/pifnjarl" 2> /dev/null || true
}

# puts a file into the tree that is made first
stage() {
    mkdir -p "$work$(dirname "$3")"
    case $2 in
    *.in) sed "s|@prefix@|$prefix|g; s|@libdir@|$libraries|g; s|@version@|$version|g" "$2" > "$work$3" ;;
    *) cp "$2" "$work$3" ;;
    esac
    chmod "$1" "$work$3"
}

# copies it beside its place, so that nothing is half installed if this fails
bring() {
    if [ -d "${DESTDIR-}$3" ]; then
        echo "${DESTDIR-}$3 is a folder" >&2
        return 1
    fi
    mkdir -p "$(dirname "${DESTDIR-}$3")"
    cp -T --remove-destination "$work$3" "${DESTDIR-}$3.new"
    chmod "$1" "${DESTDIR-}$3.new"
}

drop() {
    rm -f "${DESTDIR-}$3.new"
}

# puts it into its place, where another file of this name may be in use
place() {
    mv -fT "${DESTDIR-}$3.new" "${DESTDIR-}$3"
}

ended() {
    rm -rf "$work"
    [ -z "$bringing" ] || tree drop
}

case $doing in
list)
    tree print
    [ -n "${DESTDIR-}" ] || echo "$list"
    ;;
uninstall) uninstall ;;
install)
    look
    bringing=
    work=$(mktemp -d)
    trap ended EXIT
    trap 'exit 1' HUP INT TERM
    tree stage
    tree sum > "$work/installed"
    bringing=yes
    tree bring
    bringing=
    tree place
    if [ -z "${DESTDIR-}" ]; then
        mkdir -p "$(dirname "$list")"
        cp -T --remove-destination "$work/installed" "$list"
    fi
    ;;
esac
