#!/bin/sh
# Shows that the comparison of run.sh fails where it should:
#
#     sh scripts/differential/turned.sh [COUNT [SEED]]
#
# Each rule by which libyaml differs is left out in turn, over COUNT lists (1000 if none is named): some must differ, or
# the lists do not reach the rule. Then programs that are wrong in one thing, over 40 lists, a generator that draws nothing,
# and what lacks. PROGRAM and JOBS are as for run.sh. The status is 0 if each has the status that it should have.
#
# Run by hand, after run.sh or a rule changed.
set -u
{ [ $# -le 2 ] && [ "${1:-1}" -gt 0 ] && [ "${2:-1}" -ge 0 ]; } 2> /dev/null ||
    { echo "usage: sh scripts/differential/turned.sh [COUNT [SEED]], where COUNT is at least 1" >&2; exit 2; }
here=$(cd "$(dirname "$0")" && pwd) || exit 2
PROGRAM=$(realpath -e "${PROGRAM:-$here/../../crates/yamltokens/out/yamltokens}") || exit 2
export PROGRAM PYTHONDONTWRITEBYTECODE=1
count=${1:-1000}
seed=${2:-1}
work=$(mktemp -d) || exit 2
trap 'rm -rf "$work"' EXIT
wrong=0

# wants STATUS WHAT COMMAND..: runs a command, shows how many lists differ or what it says last, and wants this status
wants() {
    status=$1 what=$2
    shift 2
    "$@" > "$work/out" 2>&1
    got=$?
    echo "$what: status $got: $(sed -n '1s/ differ:.*/ differ/p; $p' "$work/out" | head -n 1)"
    [ $got -eq "$status" ] && return
    echo "wrong: not $status"
    wrong=$((wrong + 1))
}

# turned NAME TEXT: makes a program that is wrong; `run` in it runs the right one
turned() {
    printf '#!/bin/sh\nrun() { "%s" "$@"; }\n%s\n' "$PROGRAM" "$2" > "$work/$1"
    chmod +x "$work/$1"
}

wants 0 'nothing turned' sh "$here/run.sh" "$count" "$seed"
for rule in pair_key value_first bare_document empty_place zero_bytes; do
    wants 1 "without $rule" env WITHOUT=$rule sh "$here/run.sh" "$count" "$seed"
done

turned mark 'run "$@" > "$0.$$"; status=$?; sed "2s/:0:/:1:/" "$0.$$"; rm "$0.$$"; exit $status'
turned line 'run "$@" > "$0.$$"; status=$?; sed "\$d" "$0.$$"; rm "$0.$$"; exit $status'
turned status 'run "$@"; [ $? -eq 1 ]'
turned message 'run "$@"; status=$?; echo more >&2; exit $status'
turned crash 'kill -SEGV $$'
turned silence 'exit 0'
for name in mark line status message crash silence; do
    wants 1 "a turned $name" env PROGRAM="$work/$name" sh "$here/run.sh" 40 "$seed"
done
wants 1 'both crash' python3 "$here/compare.py" "$work/crash" "$work/crash" 40 "$seed" 4
wants 1 'both are silent' python3 "$here/compare.py" "$work/silence" "$work/silence" 40 "$seed" 4

cp "$here/compare.py" "$here/lists.py" "$work"
echo 'draw = lambda seed, number: TokenList(ANY_TOKENS, False, [])' >> "$work/lists.py"
wants 1 'a generator that draws nothing' python3 "$work/compare.py" "$PROGRAM" "$PROGRAM" 40 "$seed" 4
wants 2 'no list' sh "$here/run.sh" 0
wants 2 'no number' sh "$here/run.sh" many
wants 2 'no program' env PROGRAM="$work/nowhere" sh "$here/run.sh" 40
wants 2 'no compiler' env CC=nowhere sh "$here/run.sh" 40
wants 2 'no libyaml' env CC="$work/crash" sh "$here/run.sh" 40
echo "$wrong wrong"
[ $wrong -eq 0 ]
