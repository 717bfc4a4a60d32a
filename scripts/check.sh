#!/bin/sh
# Checks what needs no proof, in some seconds: the pages and tables against the sources, and each crate's layout.
#
#     sh scripts/check.sh
#
# Every check is run; one that fails is named after what it says. The last line is `N passed, M failed`, and the exit
# status is 1 if one failed. No file is changed. Needs python3 and `rt`.
#
# Run by hand before each commit, and by .ci/run.
set -u
[ $# = 0 ] || { echo "usage: sh scripts/check.sh" >&2; exit 2; }
cd "$(dirname "$0")/.." || exit 2
work=$(mktemp -d) || exit 2
trap 'rm -rf "$work"' EXIT
export PYTHONDONTWRITEBYTECODE=1
count=0

# Begins a check beside the others.
check() {
    count=$((count + 1))
    echo "$*" > "$work/$count.words"
    { "$@" > "$work/$count.said" 2>&1; echo $? > "$work/$count.status"; } &
}

# Lays out a copy of each crate: `rt fmt` has to say nothing and to change nothing. It also says which mutant of must-fail/
# can't be applied.
layout() {
    mkdir "$work/copy" && tar -cf - --exclude=out crates crates.txt | tar -xf - -C "$work/copy" || return 1
    (cd "$work/copy/crates" && ls | xargs -P 4 -I NAME sh -c 'cd NAME && rt fmt || echo "rt fmt fails in NAME"') > "$work/fmt" 2>&1
    cat "$work/fmt"
    diff -r -U 1 --exclude=out crates "$work/copy/crates" && [ ! -s "$work/fmt" ]
}

check python3 scripts/gate/links.py
check python3 scripts/gate/words.py
check python3 scripts/pages.py --check
check python3 scripts/gate/mutants.py
check python3 scripts/gate/between_crates.py
check python3 scripts/gate/names.py
check python3 scripts/gate/reexports.py
check python3 scripts/gate/imports.py --check
check python3 scripts/gate/dead_and_duplicate.py
check python3 scripts/gate/lists.py
check python3 scripts/gate/worked.py
check python3 scripts/doors/abi.py
check sh scripts/gate/wrong_words.sh
check layout
wait
passed=0
failed=0
for number in $(seq "$count"); do
    if [ "$(cat "$work/$number.status")" = 0 ]; then
        passed=$((passed + 1))
    else
        cat "$work/$number.said"
        echo "failed: $(cat "$work/$number.words")"
        failed=$((failed + 1))
    fi
done
echo "$passed passed, $failed failed"
[ "$failed" -eq 0 ]
