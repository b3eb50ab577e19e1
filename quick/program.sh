#!/bin/sh
# Makes a program of an LLVM module.
# Usage: program.sh MODULE.bc PROGRAM
set -eu
kit=$(dirname "$(rt doc)")
target=x86_64-unknown-linux-gnu
work=$(mktemp -d)
trap 'rm -rf "$work"' EXIT
"$kit/toolchain/bin/clang" --target=$target --no-default-config -Wno-everything -x ir "$1" -march=x86-64 \
    -mllvm -trap-unreachable -ffunction-sections -fPIE -O2 -c -o "$work/program.o"
"$kit/bin/rattle-link" --target $target --toolchain "$kit/toolchain" -o "$2" "$work/program.o" "$kit/c/libos_c.a" \
    "$kit/c/liblibc_c.a" > "$work/said" 2>&1 || { cat "$work/said" >&2; exit 1; }
