#!/bin/sh
# Builds into DIR what a user in C, Python or Rust links, and the front program over it:
#
#     sh scripts/build_c.sh DIR [ci] [aarch64]
#
#     libpokhvizi.a        one object, pokhvizi.o, whose only global names are those of the headers of bindings/c/include/pokhvizi;
#                          it doesn't allocate
#     libpokhvizi.so       the same as a shared library, libpokhvizi.so.N: N rises when a struct or a function changes
#     pokhvizi_module.o    the object that the prover's compiler wrote, of which pokhvizi.o is made
#     yaml                 examples/yaml.c over libpokhvizi.a; CFLAGS are taken from the environment
#
# build_plain.sh makes the libraries and yaml without the kit. These run on any x86-64 processor. With the word
# `aarch64` the libraries are made for that machine, over what was proved for the first, with Debian's
# gcc-aarch64-linux-gnu; `yaml` is not.
#
# Needs the kit, a C compiler, binutils, and Debian's libyaml-dev. The first run proves the crates below, which takes many
# minutes and is told in DIR/rt_lib.log. With the word `ci`, right after `rt ci` in a fresh checkout, the libraries that it
# left are taken as they are.
#
# Run by hand, and by check_programs.sh.
set -eu
usage='usage: sh scripts/build_c.sh DIR [ci] [aarch64]'
case ${1-} in '' | -*) echo "$usage" >&2; exit 2 ;; esac
dir=$1 after='' machine=x86_64
shift
for word; do
    case $word in
    ci) after=ci ;;
    aarch64) machine=aarch64 ;;
    *) echo "$usage" >&2; exit 2 ;;
    esac
done
command -v rt > /dev/null || { echo "build_c.sh: the kit's rt is not in the path" >&2; exit 2; }
mkdir -p "$dir"
dir=$(cd "$dir" && pwd)
cd "$(dirname "$0")/.."
kit=$(dirname "$(rt doc)")
case $machine in
x86_64) cc=${CC:-cc} tools='' for_machine='--cpu x86-64' ;;
aarch64) cc=aarch64-linux-gnu-gcc tools=aarch64-linux-gnu- for_machine='--target aarch64-unknown-linux-gnu' ;;
esac
: > "$dir/rt_lib.log"

# Runs a command. All that it says goes to the log; what the prover has done is told as it comes, once a function.
log() {
    : > "$dir/failed"
    { "$@" 2>&1 && rm "$dir/failed"; } | tee -a "$dir/rt_lib.log" | { grep --line-buffered -E '^(fn|rt:) ' || :; }
    [ ! -e "$dir/failed" ] || { tail -n 5 "$dir/rt_lib.log" >&2; rm "$dir/failed"; exit 1; }
}

archive=$dir/libpokhvizi_c.a
echo "building crates/pokhvizi_c, in a minute, or twenty where nothing is proved yet; see tail -f $dir/rt_lib.log"
if [ $machine = x86_64 ] && [ -z "$after" ]; then
    log sh -c "cd crates/pokhvizi_c && rt lib $for_machine"
    cp crates/pokhvizi_c/out/libpokhvizi_c.a "$archive"
else
    # `rt lib` would prove the crates below again in a fresh checkout.
    log sh scripts/parts/over_kept.sh pokhvizi_c "$archive" "$kit/toolchain" $for_machine
fi
(cd "$dir" && "${tools}ar" x "$archive" && mv pokhvizi_c.o pokhvizi_module.o)
rm -f "$archive"

wanted=$(sh scripts/parts/header_names.sh steps compose)
set --
for name in $wanted; do
    set -- "$@" "--keep-global-symbol=$name"
done
"${tools}ld" -r -o "$dir/pokhvizi.o" "$dir/pokhvizi_module.o"
"${tools}objcopy" "$@" "$dir/pokhvizi.o"
made=$("${tools}nm" -g --defined-only "$dir/pokhvizi.o" | awk 'NF == 3 { print $3 }' | sort)
[ "$made" = "$wanted" ] || { printf 'other names are exported:\n%s\n' "$made" >&2; exit 1; }
if "${tools}nm" -u "$dir/pokhvizi.o" | grep -v -w -E 'U (memcmp|memcpy|memmove|memset)' | grep .; then
    echo "pokhvizi.o needs more than memory in place" >&2
    exit 1
fi

CC=$cc sh scripts/parts/link_c.sh "$dir" "$tools" pokhvizi.o
