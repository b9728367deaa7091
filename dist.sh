#!/bin/sh
# Makes packages of what was built, with the tree of install.sh:
#
#   ./dist.sh [FOLDER]      FOLDER/pifnjarl-VERSION-x86_64-linux.tar.gz and FOLDER/pifnjarl_VERSION_amd64.deb; FOLDER is dist by default
#
# The archive has one folder, whose files belong below /usr/local. The package has them below /usr, with the places that Debian has for
# modules and completions. install.sh says which files they take and how these are built. The same files make the same bytes: times are
# SOURCE_DATE_EPOCH, or that of the last commit. dist_try.sh tries both. Needs tar, gzip and, for the package, binutils and dpkg-deb.
set -eu
unset CDPATH
umask 022
top=$(cd "$(dirname "$0")" && pwd)
folder=${1:-dist}
work=$(mktemp -d)
trap 'rm -rf "$work"' EXIT
trap 'exit 1' HUP INT TERM
export LC_ALL=C
SOURCE_DATE_EPOCH=${SOURCE_DATE_EPOCH:-$(git -C "$top" log -1 --format=%ct 2> /dev/null || echo 0)}
export SOURCE_DATE_EPOCH

# ---- the archive

name=pifnjarl-$(sed -n 's/^const VERSION: &str = "\(.*\)";$/\1/p' "$top/crates/zscli/src/commands.rt")
version=${name#pifnjarl-}
name=$name-x86_64-linux
mkdir -p "$folder"
DESTDIR=$work/local "$top/install.sh" --prefix /usr/local
mv "$work/local/usr/local" "$work/$name"
strip --strip-unneeded "$work/$name"/bin/*
tar -C "$work" --sort=name --mtime="@$SOURCE_DATE_EPOCH" --owner=0 --group=0 --numeric-owner -cf "$work/$name.tar" "$name"
gzip -9n "$work/$name.tar"
cp "$work/$name.tar.gz" "$folder/$name.tar.gz"
echo "$folder/$name.tar.gz"

# ---- the package

command -v dpkg-deb > /dev/null || {
    echo "dist.sh: without dpkg-deb no package is made" >&2
    exit
}

# the packages of the shared libraries that the programs name; of glibc the version that has all symbols
depends() {
    objdump -T "$root"/usr/bin/* | sed -n 's/.*[( ]GLIBC_\([0-9.]*\).*/\1/p' | sort -V | sed -n '$s/.*/libc6 (>= &)/p'
    objdump -p "$root"/usr/bin/* | sed -n 's/^ *NEEDED *//p' | sort -u | while read -r library; do
        case $library in
        libc.so.6 | libm.so.6 | ld-linux-x86-64.so.2) ;;
        libgcc_s.so.1) echo libgcc-s1 ;;
        *) echo "unknown-package-of-$library" ;;
        esac
    done
}

control() {
    cat << END
Package: pifnjarl
Version: $version
Architecture: amd64
Maintainer: Pifnjarl maintainers <maintainers@users.noreply.pifnjarl.example>
Installed-Size: $(du -k -s --apparent-size "$root/usr" | cut -f 1)
Depends: $(depends | paste -s -d , | sed 's/,/, /g')
Suggests: clang, nvme-cli, pkg-config, python3
Section: utils
Priority: optional
Description: NVMe zoned namespace that runs eBPF programs next to its data
 A zoned namespace in software, with a machine-checked proof that it does what
 the NVM Express Zoned Namespace Command Set and RFC 9669 say.
 .
 This package has the program zscli, a target for NVMe over TCP with a service
 for systemd, a static library with headers for C, a module for Python, and a
 header for eBPF programs.
END
}

copyright() {
    cat << 'END'
Format: https://www.debian.org/doc/packaging-manuals/copyright-format/1.0/
Upstream-Name: Pifnjarl

Files: *
Copyright: (c) The Pifnjarl authors
License: MIT or Apache-2.0

License: MIT
END
    sed '1,/^Copyright/d' "$top/LICENSE-MIT" | sed '/./,$!d; s/^$/./; s/^/ /'
    cat << 'END'

License: Apache-2.0
 On Debian systems the license is in /usr/share/common-licenses/Apache-2.0.
END
}

changelog() {
    cat << END
pifnjarl ($version) unstable; urgency=medium

  * Package of version $version.

 -- Pifnjarl maintainers <maintainers@users.noreply.pifnjarl.example>  $(date -u -R -d "@$SOURCE_DATE_EPOCH")
END
}

# a script of the package: script NAME < TEXT
script() {
    cat > "$root/DEBIAN/$1"
    chmod 755 "$root/DEBIAN/$1"
}

scripts() {
    script postinst << 'END'
#!/bin/sh
# Makes the user and the folder of the service. No instance of it is started: there is none before there is an image.
set -e
if [ "$1" = configure ]; then
    if command -v systemd-sysusers > /dev/null; then
        systemd-sysusers pifnjarl.conf
    fi
    if command -v systemd-tmpfiles > /dev/null; then
        systemd-tmpfiles --create pifnjarl.conf || true
    fi
    if command -v py3compile > /dev/null; then
        py3compile -p pifnjarl
    fi
    if [ -d /run/systemd/system ]; then
        systemctl daemon-reload || true
    fi
fi
END
    script prerm << 'END'
#!/bin/sh
# Stops the instances of the service.
set -e
if [ "$1" = remove ] && [ -d /run/systemd/system ]; then
    deb-systemd-invoke stop 'pifnjarl-nvme-tcp@*.service' || true
fi
if command -v py3clean > /dev/null; then
    py3clean -p pifnjarl
fi
END
    script postrm << 'END'
#!/bin/sh
# The images in /var/lib/pifnjarl stay, also after a purge: they are data.
set -e
if [ "$1" = purge ]; then
    rm -f /etc/systemd/system/*.wants/pifnjarl-nvme-tcp@*.service
fi
if [ -d /run/systemd/system ]; then
    systemctl daemon-reload || true
fi
END
}

root=$work/root
DESTDIR=$root "$top/install.sh" --prefix /usr --libdir /usr/lib/x86_64-linux-gnu --zshdir /usr/share/zsh/vendor-completions
mkdir "$root/DEBIAN"
strip --strip-unneeded --remove-section=.comment --remove-section=.note "$root"/usr/bin/*
gzip -9n "$root"/usr/share/man/man?/*
rm "$root/usr/share/doc/pifnjarl/LICENSE-MIT" "$root/usr/share/doc/pifnjarl/LICENSE-APACHE"
copyright > "$root/usr/share/doc/pifnjarl/copyright"
changelog | gzip -9n > "$root/usr/share/doc/pifnjarl/changelog.gz"
scripts
control > "$root/DEBIAN/control"
(cd "$root" && find usr -type f | sort | xargs -d '\n' md5sum) > "$root/DEBIAN/md5sums"
package=$folder/pifnjarl_${version}_amd64.deb
dpkg-deb --root-owner-group -Zxz --build "$root" "$package" > /dev/null
echo "$package"
