#!/bin/sh
# Builds into DIR, with stock cargo and rustc, what build_c.sh builds with the kit: the libraries for C of the
# same source text, and the front program over them.
#
#     sh scripts/build_plain.sh DIR [MACHINE]
#
#     libpokhvizi.a        one object, pokhvizi.o, whose only global names are those of bindings/c/include/pokhvizi
#     libpokhvizi.so       the same as a shared library
#     yaml                 examples/yaml.c over libpokhvizi.a; CFLAGS are taken from the environment
#
# The run proves nothing: the source text is what is proved, and rustc is trusted in the place of the prover's
# compiler. For Linux; elsewhere `cargo build --release` in bindings/c makes a static and a shared library of
# the same calls. MACHINE is such as aarch64, for which rustc has to have its core library, with Debian's
# gcc-MACHINE-linux-gnu; `yaml` is not made then.
#
# Needs cargo and rustc (1.65 or later), a C compiler, binutils, and Debian's libyaml-dev.
#
# Run by hand, by bindings/python/backend.py and by check_programs.sh.
set -eu
usage='usage: sh scripts/build_plain.sh DIR [MACHINE]'
case ${1-} in '' | -*) echo "$usage" >&2; exit 2 ;; esac
case $#${2-} in 1 | 2[a-z]*) ;; *) echo "$usage" >&2; exit 2 ;; esac
command -v cargo > /dev/null || { echo "build_plain.sh: cargo is not in the path" >&2; exit 2; }
mkdir -p "$1"
dir=$(cd "$1" && pwd)
machine=${2-}
cd "$(dirname "$0")/.."
tools=${machine:+$machine-linux-gnu-}
target=${machine:+$machine-unknown-linux-gnu}
RUSTFLAGS="${RUSTFLAGS-} --remap-path-prefix=$PWD=. --remap-path-prefix=$dir=." cargo build -q --release --manifest-path bindings/c/Cargo.toml \
    --target-dir "$dir/cargo" ${target:+--target "$target"}

# Of the archive, which has all of Rust's core library, what the calls need. C's library has the rest.
wanted=$(sh scripts/parts/header_names.sh steps compose)
"${tools}ld" -r --gc-sections --strip-debug $(printf ' -u %s' $wanted) -o "$dir/pokhvizi.o" "$dir/cargo/${target:+$target/}release/libpokhvizi.a"
"${tools}objcopy" $(printf ' --keep-global-symbol=%s' $wanted) "$dir/pokhvizi.o"
if "${tools}nm" -u "$dir/pokhvizi.o" | grep -v -w -E 'U (abort|bcmp|memcmp|memcpy|memmove|memset)' | grep .; then
    echo "pokhvizi.o needs more than memory in place" >&2
    exit 1
fi
sh scripts/parts/link_c.sh "$dir" "$tools" pokhvizi.o
