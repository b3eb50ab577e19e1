#!/bin/sh
# Builds the crate in the current folder as `rt lib` does, and keeps the LLVM module that the kit gives its clang. What is
# proved and compiled is the same.
# Usage: keep_ir.sh MODULE.bc ARGUMENT.., with arguments of `rt lib`
set -eu
kit=$(dirname "$(rt doc)")
to=$1
shift
work=$(mktemp -d)
trap 'rm -rf "$work"' EXIT
# A copy of the kit by links, whose clang keeps its input and then is the kit's.
mkdir "$work/kit" "$work/kit/bin" "$work/kit/toolchain" "$work/kit/toolchain/bin"
for it in "$kit"/*; do
    case ${it##*/} in bin | toolchain) ;; *) ln -s "$it" "$work/kit/" ;; esac
done
ln -s "$kit"/bin/* "$work/kit/bin/"
ln -s "$kit/toolchain/lib" "$work/kit/toolchain/"
ln -s "$kit"/toolchain/bin/* "$work/kit/toolchain/bin/"
# rt looks for the kit next to its own files.
rm "$work/kit/bin/rt" "$work/kit/bin/rtlib.py" "$work/kit/toolchain/bin/clang"
cp "$kit/bin/rt" "$kit/bin/rtlib.py" "$work/kit/bin/"
cat > "$work/kit/toolchain/bin/clang" << CLANG
#!/bin/sh
for it; do
    case \$it in *.bc) cp "\$it" "$work/module.bc" ;; esac
done
exec "$kit/toolchain/bin/clang" "\$@"
CLANG
chmod +x "$work/kit/toolchain/bin/clang"
# rt compiles nothing for an archive that is up to date.
rm -f out/lib*.a
"$work/kit/bin/rt" lib "$@"
cp "$work/module.bc" "$to"
