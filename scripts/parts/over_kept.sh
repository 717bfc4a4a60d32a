#!/bin/sh
# Builds the static library of a crate over the libraries that proofs left in crates/*/out/rlib, without any proof:
#
#     sh scripts/parts/over_kept.sh CRATE ARCHIVE TOOLCHAIN WORD..
#
# TOOLCHAIN has the tools of the kit's compiler, or others in their place; the words are the compiler's, for another machine.
#
# Run by build_c.sh and llvm_source.sh.
set -eu
[ $# -ge 3 ] || { echo "usage: sh scripts/parts/over_kept.sh CRATE ARCHIVE TOOLCHAIN WORD.." >&2; exit 2; }
crate=$1 archive=$2 toolchain=$3
shift 3
cd "$(dirname "$0")/../.."
top=$PWD
kit=$(dirname "$(rt doc)")
set -- "$@" --extern "std=$kit/rlibs/std.rlib" -L "dependency=$kit/rlibs"
for below in $(sed -n "s/^$crate staticlib: *//p" crates.txt); do
    made=$top/crates/$below/out/rlib/$below.rlib
    [ -d "crates/$below" ] || made=$kit/rlibs/$below.rlib
    set -- "$@" --extern "$below=$made"
done
for folder in "$top"/crates/*/out/rlib; do
    set -- "$@" -L "dependency=$folder"
done
cd "crates/$crate"
mkdir -p out
"$kit/bin/rattle" build --crate-name "$crate" src/lib.rt "$@" --antt-project "$kit/rattle/logic/antt-project.json" \
    --logic-built "$kit/logic_built" --jobs 1 --links "$crate=" --crate-type staticlib --toolchain "$toolchain" --backend llvm -o "$archive"
