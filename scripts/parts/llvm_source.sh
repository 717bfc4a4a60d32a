#!/bin/sh
# Writes into DIR the LLVM module that the prover's compiler makes of the library for C, as pokhvizi.ll, and beside it the object
# that its clang makes of it, as pokhvizi_module.o:
#
#     sh scripts/parts/llvm_source.sh DIR
#
# The kit has no word for a module. So its compiler is run with a folder of tools whose clang first copies what it is given. This
# rests on how the kit calls clang: with the module as the file module.bc in the folder that it is run in. If that is no longer
# so, no module is found, and the script fails. Needs what build_c.sh made before: the proved libraries in crates/*/out/rlib.
#
# Run by release.sh.
set -eu
[ $# -eq 1 ] && case $1 in '' | -*) false ;; esac || { echo "usage: sh scripts/parts/llvm_source.sh DIR" >&2; exit 2; }
mkdir -p "$1"
dir=$(cd "$1" && pwd)
cd "$(dirname "$0")/../.."
kit=$(dirname "$(rt doc)")
work=$(mktemp -d)
trap 'rm -rf "$work"' EXIT
mkdir -p "$work/toolchain/bin"
for part in "$kit"/toolchain/*; do
    [ "${part##*/}" = bin ] || ln -s "$part" "$work/toolchain/${part##*/}"
done
for tool in "$kit"/toolchain/bin/*; do
    ln -s "$tool" "$work/toolchain/bin/${tool##*/}"
done
rm "$work/toolchain/bin/clang"
printf '#!/bin/sh\n[ ! -e module.bc ] || cp module.bc "%s/module.bc"\nexec "%s" "$@"\n' "$work" "$kit/toolchain/bin/clang" > "$work/toolchain/bin/clang"
chmod 755 "$work/toolchain/bin/clang"

sh scripts/parts/over_kept.sh pokhvizi_c "$work/lib.a" "$work/toolchain" --cpu x86-64 > "$work/said" 2>&1 || { tail -n 5 "$work/said" >&2; exit 1; }
[ -s "$work/module.bc" ] || { echo "llvm_source.sh: no module was found" >&2; exit 1; }
# In its folder, as clang writes the name that it is given into the module.
(cd "$work" && "$kit/toolchain/bin/clang" --target=x86_64-unknown-linux-gnu --no-default-config -S -emit-llvm -O0 \
    -Xclang -disable-llvm-passes -x ir module.bc -o "$dir/pokhvizi.ll")
(cd "$work" && ar x lib.a && mv pokhvizi_c.o "$dir/pokhvizi_module.o")
