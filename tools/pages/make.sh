#!/bin/sh
# Makes docs/proved.md and docs/statement/ of the sources of the crates, and of the help texts the manual page docs/zscli.1 and the
# completions for shells, docs/zscli.bash, zscli.zsh and zscli.fish. With --check it compares them, and looks at the links and quotes of
# the other pages; it prints what is wrong, and ends with status 1 then.
here=$(dirname "$0")
python3 "$here/make.py" "$@" || status=1
python3 "$here/help.py" "$@" || status=1
python3 -B "$here/completions.py" "$@" || status=1
python3 -B "$here/statement.py" "$@" || status=1
if [ "${1-}" = --check ]; then
    python3 "$here/check.py" || status=1
fi
exit "${status-0}"
