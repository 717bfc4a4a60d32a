#!/bin/sh
# Gives each script wrong words, and those that need a word none: it has to say its usage in one line on standard
# error, and nothing else, to end with status 2 at once, and to leave the folder that it is run in empty.
#
#     sh scripts/gate/wrong_words.sh
#
# vendor_checks.sh has more wrong words of vendor.sh. The exit status is 1 if a script does something else.
#
# Run by check.sh.
set -u
[ $# = 0 ] || { echo "usage: sh scripts/gate/wrong_words.sh" >&2; exit 2; }
top=$(cd "$(dirname "$0")/../.." && pwd) || exit 2
work=$(mktemp -d) || exit 2
trap 'rm -rf "$work"' EXIT
mkdir "$work/empty" && cd "$work/empty" || exit 2
runs=0
wrong=0

# refuses SCRIPT WORD..: with these words
refuses() {
    script=$1
    shift
    case $script in *.py) by=python3 ;; *) by=sh ;; esac
    (ulimit -t 20 && exec timeout 200 $by "$top/$script" "$@") > "$work/out" 2> "$work/err" < /dev/null
    got=$?
    runs=$((runs + 1))
    if [ $got -ne 2 ] || [ -s "$work/out" ] || [ "$(wc -l < "$work/err")" -ne 1 ] || ! grep -q 'usage: ' "$work/err"; then
        echo "wrong: $script $*: status $got: $(cat "$work/out" "$work/err" | head -n 3)"
        wrong=$((wrong + 1))
    fi
    if [ -n "$(ls -A)" ]; then
        echo "wrong: $script $* leaves $(ls -A)"
        wrong=$((wrong + 1))
        rm -rf "$work/empty" && mkdir "$work/empty" && cd "$work/empty" || exit 2
    fi
}

for script in bench/clients.sh bindings/c/build_libyaml.sh bindings/c/proved-libyaml bindings/python/build_extension.sh \
    scripts/build_c.sh scripts/build_plain.sh scripts/clone_trees.sh scripts/doors/any_processor.sh scripts/doors/clients.sh \
    scripts/doors/door_checks.sh scripts/doors/extension_checks.sh scripts/doors/hostile_texts.py scripts/doors/programs.sh \
    scripts/gate/inlined.sh scripts/parts/llvm_source.sh scripts/release.sh \
    scripts/gate/release_checks.sh scripts/release_trees.sh scripts/gate/statuses.sh scripts/vendor.sh scripts/refusals.py \
    scripts/gate/compare_errors.py scripts/gate/compare_fronts.py scripts/gate/slow_pipe.py; do
    refuses $script
    refuses $script --help
done
for script in bench/run.sh scripts/pages.py scripts/answers.py scripts/controls.py scripts/mutants_seen.py scripts/leaks_seen.py scripts/doors/abi.py scripts/gate/imports.py \
    scripts/gate/left_out.py scripts/gate/names.py scripts/gate/same_machine.py scripts/gate/sizes_by_pyyaml.py scripts/check_programs.sh scripts/differential/run.sh scripts/differential/turned.sh; do
    refuses $script --help
    refuses $script no_such_word
done
for script in scripts/check.sh scripts/gate/calling_steps.sh scripts/gate/plain_rust.sh scripts/gate/vendor_checks.sh scripts/gate/wrong_words.sh \
    scripts/gate/platforms.sh scripts/gate/links.py scripts/gate/words.py scripts/gate/mutants.py scripts/gate/between_crates.py scripts/gate/reexports.py \
    scripts/gate/dead_and_duplicate.py scripts/gate/names.py scripts/gate/worked.py scripts/gate/lists.py bench/plain.py bench/measure.py; do
    refuses $script no_such_word
done
refuses scripts/build_c.sh ''
refuses scripts/build_c.sh "$work/built" no_such_word
refuses scripts/doors/door_checks.sh no_such_door
refuses scripts/parts/llvm_source.sh ''
refuses scripts/parts/llvm_source.sh one two
refuses bench/run.sh clock no_such_word
echo "$runs runs, $wrong wrong"
[ "$wrong" = 0 ]
