#!/bin/sh
# install.sh PREFIX: puts the proved programs, with their pages of the manual, below the folder PREFIX.
#
# crates/ompback/out/ompback and crates/omplab/out/omplab go to PREFIX/bin, and docs/ompback.1 and docs/omplab.1 to
# PREFIX/share/man/man1. A program that is not built is left out, with its page: a line on standard error says how to
# build it, and the status is 1. A POSIX shell and its usual commands suffice.
set -eu

root="$(dirname "$0")/.."

# Copies a file with these rights, and puts it in place at once: a program that runs there runs on.
put() {
    cp "$1" "$2.new"
    chmod "$3" "$2.new"
    mv -f "$2.new" "$2"
    echo "$2"
}

case "${1-}" in
'' | -*) set -- ;;
esac
if [ "$#" -ne 1 ]; then
    echo "usage: sh tools/install.sh PREFIX, as in sh tools/install.sh \"\$HOME/.local\"" >&2
    exit 2
fi
prefix="$1"
status=0
for name in ompback omplab; do
    program="$root/crates/$name/out/$name"
    if [ -f "$program" ] && [ -x "$program" ]; then
        mkdir -p "$prefix/bin" "$prefix/share/man/man1"
        put "$program" "$prefix/bin/$name" 755
        put "$root/docs/$name.1" "$prefix/share/man/man1/$name.1" 644
    else
        echo "$name is not built: python3 tools/prove.py $name proves and builds it" >&2
        status=1
    fi
done
exit "$status"
