#!/bin/sh
# Runs a built `yamltokens` over all that its tests have as files, and over what no file can have, and fails if its exit status,
# its output or its error output is another (docs/DEFINITIONS.md, "The program"): each list of the test vectors, each run and each
# line of bindings/plain/tests/data/runs, and the longest line. The contract of `run_words` says its status; that `main` passes
# that on, and that the program is built as it was proved, is seen here alone.
#
#     scripts/gate/statuses.sh crates/yamltokens/out/yamltokens
#
# Run by check_programs.sh.
set -uf
[ $# -eq 1 ] && case $1 in '' | -*) false ;; esac || { echo "usage: statuses.sh PROGRAM" >&2; exit 2; }
program=$(realpath "$1") && [ -x "$program" ] || { echo "no program" >&2; exit 2; }
top=$(cd "$(dirname "$0")/../.." && pwd) || exit 2
data=$top/bindings/plain/tests/data/runs
work=$(mktemp -d) || exit 2
trap 'rm -rf "$work"' EXIT
cd "$work" || exit 2
: > none
wrong=0
runs=0

# file NAME: where a file of a line is; `-` has no bytes
file() {
    case $1 in -) echo none ;; *) echo "$data/lists/$1" ;; esac
}

# is NAME STATUS INPUT OUTPUT ERRORS WORD..: runs the program with these words over a file, and compares
is() {
    name=$1 wanted=$2 input=$3 output=$4 errors=$5
    shift 5
    if [ "$output" = full ]; then
        "$program" "$@" < "$input" > /dev/full 2> told
        status=$?
    else
        "$program" "$@" < "$input" > given 2> told
        status=$?
        cmp -s given "$output" || { echo "$name: another output: $(head -c 200 given | head -n 1)"; wrong=1; }
    fi
    [ "$status" -eq "$wanted" ] || { echo "$name: status $status, not $wanted"; wrong=1; }
    cmp -s told "$errors" || { echo "$name: another error output: $(head -n 1 told)"; wrong=1; }
    runs=$((runs + 1))
}

# gives NAME INPUT OUTPUT WORD: the program writes this, with status 1 if it is an error at last
gives() {
    status_of=0
    ! grep -q '^FAULT ' "$3" || status_of=1
    is "$1" $status_of "$2" "$3" none "$4"
}

[ -w /dev/full ] || { echo "no /dev/full: status 3 is not tried"; wrong=1; }
while IFS= read -r line; do
    # shellcheck disable=SC2086
    set -- ${line%%: *}
    name=$1 wanted=$2 input=$3 output=$4 errors=$5
    shift 5
    [ "$output" = full ] || output=$(file "$output")
    is "$name" "$wanted" "$(file "$input")" "$output" "$(file "$errors")" "$@"
done < "$data/worked"
[ $runs -ge 38 ] || { echo "only $runs worked runs"; wrong=1; }

find "$top/crates/vectors/data" "$data/lists" -name '*.tokens' > lists
while IFS= read -r tokens; do
    for word in events nodes; do
        wanted_lines=${tokens%.tokens}.$word
        [ ! -e "$wanted_lines" ] || gives "${wanted_lines#"$top/"}" "$tokens" "$wanted_lines" $word
    done
done < lists
[ $runs -ge 360 ] || { echo "only $runs runs over lists"; wrong=1; }

for kind in good_line bad_line; do
    while IFS= read -r line; do
        printf '%s\n' "$line" > one
        gives "the line $line" one "$data/$kind.events" events
    done < "$data/${kind}s"
done
[ $runs -ge 450 ] || { echo "only $runs runs, with those over lines"; wrong=1; }

# with_text FILE LENGTH: its bytes, with so many `x` for each `@`
with_text() {
    xs=$(head -c "$2" /dev/zero | tr '\0' x)
    while IFS= read -r line; do
        case $line in *@*) line=${line%%@*}$xs${line#*@} ;; esac
        printf '%s\n' "$line"
    done < "$data/$1"
}

sed -n '/^# lines as long as any, and longer/,/^# /p' "$data/vectors" | grep -v '^#' > long
while IFS='|' read -r name length run lines; do
    with_text long_scalar "$length" > input
    with_text "$lines" "$length" > output
    gives "$name" input output "${run%% *}"
done < long
[ $runs -ge 454 ] || { echo "only $runs runs, with those over long lines"; wrong=1; }

whole=$(file implicit_document.tokens)
usage=$(file usage.errors)
failed=$(file output_failed.errors)
bad=$(file empty_line.events)
printf 'a: b\n' > yaml
{ printf '\357\273\277' && cat "$whole"; } > bom
head -n 2 "$whole" > cut
is yaml 1 yaml "$bad" none events
is bom 1 bom "$bad" none events
is 'a word that is no text' 2 "$whole" none "$usage" "$(printf 'events\377')"
is 'an empty word' 2 "$whole" none "$usage" ''
is 'a word with a space' 2 "$whole" none "$usage" 'events '
is 'a full output of a cut list' 3 cut full "$failed" events
echo "$runs runs, $([ $wrong -eq 0 ] && echo 'all as said' || echo 'some not as said')"
exit $wrong
