#!/bin/sh
# Makes a WebAssembly module of heap.c and of an LLVM module that the kit made for x86-64.
# Usage: link.sh MODULE.bc MODULE.wasm [EXPORT..], with names that it exports besides the calls
set -eu
command -v wasm-opt > /dev/null || { echo 'wasm-opt is missing: the package binaryen has it' >&2; exit 1; }
from=$1 to=$2
shift 2
kit=$(dirname "$(rt doc)")/toolchain/bin
here=$(cd "$(dirname "$0")" && pwd)
work=$(mktemp -d)
trap 'rm -rf "$work"' EXIT
"$kit/clang" --target=x86_64-unknown-linux-gnu -x ir "$from" -S -emit-llvm -O0 -Xclang -disable-llvm-passes -o "$work/x86_64.ll"
# Both targets have the same sizes and alignments of all types. The attributes that go are for x86-64 alone.
sed -E \
    -e 's/^target triple = .*/target triple = "wasm64-unknown-unknown"/' \
    -e 's/^target datalayout = .*/target datalayout = "e-m:e-p:64:64-p10:8:8-p20:8:8-i64:64-i128:128-n32:64-S128-ni:1:10:20"/' \
    -e '/^attributes/s/ "(frame-pointer|probe-stack|stack-probe-size|target-cpu|target-features)"="[^"]*"//g' \
    "$work/x86_64.ll" > "$work/wasm64.ll"
wasm() { "$kit/clang" --target=wasm64-unknown-unknown -mcpu=lime1 -mllvm -expand-div-rem-bits=64 "$@"; }
wasm -O3 -ffunction-sections -fdata-sections -c -x ir "$work/wasm64.ll" -o "$work/module.o"
wasm -O2 -std=gnu99 -Wall -Wextra -ffreestanding -nostdinc -ffunction-sections -c "$here/heap.c" -o "$work/heap.o"
for it in $(sed -n -E 's/^define ([^@]* )?@(fmtcanon_[a-z_]+)\(.*/\2/p' "$work/wasm64.ll"); do set -- "$@" "$it"; done
for it; do
    set -- "$@" "--export=$it"
    shift
done
"$kit/ld.lld" -flavor wasm -mwasm64 --no-entry --stack-first -z stack-size=1048576 --gc-sections --strip-all --threads=1 \
    --export=fmtcanon_room "$@" "$work/module.o" "$work/heap.o" -o "$work/fmtcanon.wasm"
# Browsers have 64-bit addresses of late or not at all. Lengths and pointers of the calls keep their 64 bits.
wasm-opt --enable-memory64 --enable-bulk-memory --enable-mutable-globals --enable-sign-ext \
    --enable-nontrapping-float-to-int --memory64-lowering "$work/fmtcanon.wasm" -o "$to"
