#!/bin/sh
# Runs a program over each header of the library for C as on the first x86-64 processors:
#
#     sh scripts/doors/any_processor.sh DIR
#
# DIR has the libraries that build_c.sh made there. The programs are linked statically and run by qemu-x86_64 (Debian: qemu-user),
# whose processor `qemu64` has no instructions but those that every x86-64 processor has. The status is 0 if all are as
# they should be.
#
# Run by check_programs.sh.
set -u
[ $# -eq 1 ] && dir=$(realpath "$1") && [ -f "$dir/libpokhvizi.a" ] || { echo "usage: sh scripts/doors/any_processor.sh DIR" >&2; exit 2; }
cd "$(dirname "$0")/../.." || exit 2
work=$(mktemp -d) || exit 2
trap 'rm -rf "$work"' EXIT
cc=${CC:-cc}
wrong=0
ulimit -c 0

# check NAME COMMAND: its output has to be the same as plainly, and its status 0.
check() {
    name=$1
    shift
    "$@" > "$work/plain" 2>&1 || { echo "wrong: $name, plainly: $(tail -n 1 "$work/plain")"; wrong=$((wrong + 1)); }
    qemu-x86_64 -cpu qemu64 "$@" > "$work/said" 2>&1
    status=$?
    [ $status -eq 0 ] && cmp -s "$work/plain" "$work/said" || { echo "wrong: $name, status $status"; wrong=$((wrong + 1)); }
    echo "$name: $(tail -n 1 "$work/said")"
}

# A program with an instruction of later processors has to be stopped.
printf '%s\n' '#include <tmmintrin.h>' '#include <stdio.h>' 'int main(int count, char **words) { (void)words; __m128i a = _mm_set1_epi8(count);' \
    'return printf("%d\n", _mm_cvtsi128_si32(_mm_shuffle_epi8(a, a))) < 0; }' > "$work/later.c"
$cc -O2 -mssse3 -static -o "$work/later" "$work/later.c" || exit 2
"$work/later" > "$work/plain" && ! qemu-x86_64 -cpu qemu64 "$work/later" > "$work/said" 2>&1 ||
    { echo "wrong: later instructions are not seen"; wrong=$((wrong + 1)); }

set -- examples/*.yaml scripts/parts/broken/*.yaml scripts/parts/whole/*.yaml
$cc -O2 -static -Ibindings/c/include -o "$work/steps" scripts/doors/steps_driver.c "$dir/libpokhvizi.a" -lyaml -lpthread || exit 2
check "libpokhvizi.a, steps" "$work/steps" "$@"
$cc -O2 -static -Ibindings/c/include -o "$work/compose" scripts/doors/compose_driver.c "$dir/libpokhvizi.a" -lyaml -lpthread || exit 2
check "libpokhvizi.a, documents" "$work/compose" "$@"
$cc -O2 -static -Ibindings/c/include -o "$work/yaml" examples/yaml.c "$dir/libpokhvizi.a" -lyaml || exit 2
for mode in events nodes; do
    check "libpokhvizi.a, lines of $mode" "$work/yaml" $mode examples/compose.yaml
done
echo "$wrong wrong"
[ $wrong -eq 0 ]
