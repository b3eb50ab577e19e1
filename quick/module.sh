#!/bin/sh
# Compiles the program in the current folder without proving it, and keeps the LLVM module. The kit's `rt try` makes one of
# each program that it tries, in which a fault (an index that is out of bounds, a sum that wraps) is a trap. This ends it
# there, before it compiles the module for its own run.
# Usage: module.sh MODULE.bc
set -eu
kit=$(dirname "$(rt doc)")
to=$1
work=$(mktemp -d)
trap 'rm -rf "$work"' EXIT
# A copy of the kit by links, whose clang keeps its input and then fails, and which checks nothing.
mkdir "$work/kit" "$work/kit/bin" "$work/kit/toolchain" "$work/kit/toolchain/bin"
for it in "$kit"/*; do
    case ${it##*/} in bin | toolchain) ;; *) ln -s "$it" "$work/kit/" ;; esac
done
ln -s "$kit"/bin/* "$work/kit/bin/"
ln -s "$kit/toolchain/lib" "$work/kit/toolchain/"
ln -s "$kit"/toolchain/bin/* "$work/kit/toolchain/bin/"
rm "$work/kit/bin/rt" "$work/kit/bin/rtlib.py" "$work/kit/bin/rattle" "$work/kit/toolchain/bin/clang"
cp "$kit/bin/rt" "$kit/bin/rtlib.py" "$work/kit/bin/"
printf '#!/bin/sh\nexit 2\n' > "$work/kit/bin/rattle"
cat > "$work/kit/toolchain/bin/clang" << CLANG
#!/bin/sh
case " \$* " in *" -fsanitize=address "*) cp module.bc "$work/module.bc"; exit 1 ;; esac
exec "$kit/toolchain/bin/clang" "\$@"
CLANG
chmod +x "$work/kit/bin/rattle" "$work/kit/toolchain/bin/clang"
"$work/kit/bin/rt" try --steps 1 > "$work/said" 2>&1 < /dev/null || true
[ -s "$work/module.bc" ] || { cat "$work/said" >&2; exit 1; }
mv "$work/module.bc" "$to"
