#!/bin/sh
# Makes one object of the archive that is proved: with the calls of malloc, realloc and free in it, with
# optional_error.c before its calls, and with no other global names than those of the header.
# Usage: library/join.sh ARCHIVE OBJECT, at the top of the repository. CC is the compiler. For another processor, CROSS
# is what the names of its tools begin with, and heap.c stands for the kit's three calls.
set -eu
kit=$(dirname "$(rt doc)")
cross=${CROSS:-}
work=$(mktemp -d)
trap 'rm -rf "$work"' EXIT
compile() { "${CC:-cc}" -std=c99 -O2 -fPIC -Iinclude -c "$1" -o "$2"; }
if [ -n "$cross" ]; then
    compile library/heap.c "$work/heap.o"
    heap=$work/heap.o
else
    heap=$kit/c/liblibc_c.a
fi
"${cross}ld" -r --whole-archive "$1" --no-whole-archive "$heap" -o "$work/proved.o"
sed -n 's/^WITH_OPTIONAL_ERROR(\(fmtcanon_[a-z_]*\),.*/\1 proved_\1/p' library/optional_error.c > "$work/names"
"${cross}objcopy" --redefine-syms="$work/names" "$work/proved.o"
compile library/optional_error.c "$work/optional_error.o"
"${cross}ld" -r "$work/proved.o" "$work/optional_error.o" -o "$2"
"${cross}objcopy" --wildcard --keep-global-symbol='fmtcanon_*' "$2"
