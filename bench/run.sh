#!/bin/sh
# Prints the tables of docs/PERFORMANCE.md, and draws docs/performance.svg:
#
#     sh bench/run.sh [clock] [KIND..]
#
# KIND is a kind of list that bench/lists.py names, `growth`, `lengths` or `program`; without one all are measured, and only
# then the drawing is made. `clock` takes the time too: let nothing else run. UNSAFE_LIBYAML=DIR is the folder of the Rust
# crate, version 0.2.11, with its src; without it its columns are missing. Debian has it from release 13 on, as
# librust-unsafe-libyaml-dev in /usr/share/cargo/registry. BENCH_LISTS and YAMLTOKENS may name programs that are built
# already, such as earlier builds. JOBS=N counts go on at a time (2).
#
# Needs the kit, valgrind, a C compiler, Python, Debian's libyaml-dev, and rustc for the Rust crate. The first run proves
# the crates. Fails if a tool, a program or a peer fails, or if two of them disagree.
set -eu
top=$(CDPATH='' cd -- "$(dirname -- "$0")/.." && pwd)
work=$(mktemp -d)
trap 'rm -rf "$work"' EXIT
export PYTHONDONTWRITEBYTECODE=1

clock=
if [ "${1-}" = clock ]; then
    clock=--clock
    shift
fi
known="$(cd "$top/bench" && python3 -c 'import lists; print(*lists.KINDS)') growth lengths program"
for word; do
    case " $known " in
    *" $word "*) ;;
    *) echo "usage: sh bench/run.sh [clock] [KIND..], where KIND is of: $known" >&2; exit 2 ;;
    esac
done
for tool in rt valgrind python3 "${CC:=cc}"; do
    command -v "$tool" > /dev/null || { echo "run.sh: $tool is missing" >&2; exit 1; }
done

# build CRATE PROGRAM WORD..: proves and builds a program of the repository, unless PROGRAM is built already.
build() {
    crate=$1 built=$2
    shift 2
    if [ -z "$built" ]; then
        built=$top/crates/$crate/out/$crate
        (cd "$top/crates/$crate" && rt run -- "$@" < "$top/examples/list.tokens") > "$work/log" 2>&1 ||
            { tail -n 5 "$work/log" >&2; exit 1; }
    fi
    cp "$built" "$work/$crate"
}

build bench_lists "${BENCH_LISTS-}"
build yamltokens "${YAMLTOKENS-}" events
cd "$top/bench"
flags='-std=gnu11 -O2 -Wall -Wextra'
"$CC" $flags -c -o "$work/read_tokens.o" read_tokens.c
"$CC" $flags -o "$work/libyaml" libyaml.c "$work/read_tokens.o" -Wl,-Bstatic -lyaml -Wl,-Bdynamic
"$CC" $flags -o "$work/libyaml_lines" ../scripts/differential/libyaml_lines.c -Wl,-Bstatic -lyaml -Wl,-Bdynamic
if [ -n "${UNSAFE_LIBYAML-}" ] && command -v rustc > /dev/null; then
    for by in libyaml moved copied serde; do
        rustc --edition 2021 -O -C codegen-units=1 -C panic=abort --cfg "$by" -o "$work/unsafe_$by" unsafe_libyaml.rs \
            -C link-arg="$work/read_tokens.o" -C link-arg=-lyaml
    done
fi
python3 lists.py "$work"

if [ $# -gt 0 ]; then
    python3 measure.py "$work" $clock "$@"
else
    python3 measure.py "$work" $clock --out "$work/figures" $known
    python3 chart.py "$work/figures" "$top/docs/performance.svg"
fi
