#!/bin/sh
# Makes an object of the LLVM module of the crate that c_crate.py makes, in which the calls of the header are global.
# Usage: library.sh MODULE.bc OBJECT
set -eu
kit=$(dirname "$(rt doc)")
work=$(mktemp -d)
trap 'rm -rf "$work"' EXIT
clang() { "$kit/toolchain/bin/clang" --target=x86_64-unknown-linux-gnu --no-default-config -Wno-everything -x ir "$@"; }
clang "$1" -S -emit-llvm -O0 -o "$work/module.ll"
name='@"quick_c::[a-z_]*::\(fmtcanon_[a-z_]*\)"'
sed "/^define /s/^define internal \\([^@]*\\)$name/define \\1@\\2/; s/$name/@\\1/g" "$work/module.ll" > "$work/global.ll"
clang "$work/global.ll" -march=x86-64 -mllvm -trap-unreachable -ffunction-sections -fPIC -O2 -c -o "$2"
