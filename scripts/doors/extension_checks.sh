#!/bin/sh
# Tries the extension of bindings/python in every way that no proof covers, and says what it saw:
#
#     sh scripts/doors/extension_checks.sh DIR [all]
#
# DIR has the libraries that build_c.sh made there.
#
# Tokens, events, nodes, values and errors beside those of PyYAML's C loaders, with all fields and marks: over the repository's
# own texts, and YAML files below /usr and /opt; how much of a stream has been read when each comes; what an error says was expected, and what it is about; duplicate keys; each allocation of Python's and
# of libc's refused in turn; deep texts and bounds, drawn tag directives, calls in any order, loaders that are called while they
# are at work, a second interpreter, cycles and leaks; what others put in the place of PyYAML's functions. With `all` there are more
# files, deeper texts, and each text has its allocations refused. The status is 0 if all is as it should be.
#
# PYTHON is python3 if it isn't set. Needs what build_extension.sh needs, and PyYAML with its C form for that Python. If the
# Python has no _testcapi, its allocations are not refused, and the script says so.
#
# Run by check_programs.sh.
set -u
[ $# -ge 1 ] && dir=$(realpath "$1") && [ -f "$dir/libpokhvizi.a" ] || {
    echo "usage: sh scripts/doors/extension_checks.sh DIR [all], where build_c.sh made DIR" >&2
    exit 2
}
all=${2-}
cd "$(dirname "$0")/../.." || exit 2
here=scripts/doors/extension
work=$(mktemp -d) || exit 2
trap 'rm -rf "$work"' EXIT
python=${PYTHON:-python3}
export PYTHONDONTWRITEBYTECODE=1 POKHVIZI_LIBRARY="$dir/libpokhvizi.so" PYTHONPATH="$work/python"
files=300 levels=20000 texts=5
[ -z "$all" ] || files=100000 levels=100000 texts=
wrong=0

complain() {
    echo "wrong: $*"
    wrong=$((wrong + 1))
}

# Runs a command, whose status must be 0; its last line is shown.
check() {
    what=$1
    shift
    "$@" > "$work/said" 2>&1 || { wrong=$((wrong + 1)); tail -n 20 "$work/said"; what="wrong: $what"; }
    echo "$what: $(tail -n 1 "$work/said")"
}

# Runs a command whose expectation is turned: its status must not be 0, and it must say why.
check_turned() {
    what=$1
    shift
    if "$@" > "$work/said" 2>&1 || ! grep -q '^wrong: ' "$work/said"; then
        tail -n 5 "$work/said"
        complain "$what, turned, isn't seen"
    fi
}

# ---- The extension ----

mkdir "$work/built" "$work/python"
ln -s "$dir/libpokhvizi.a" "$work/built"
include=${PYTHON_INCLUDE:-$("$python" -c 'import sysconfig; print(sysconfig.get_path("include"))')}
PYTHON_INCLUDE=$include sh bindings/python/build_extension.sh "$work/built" || exit 2
cp -R bindings/python/src/pokhvizi "$work/python"
cp "$work/built/_yaml.abi3.so" "$work/python/pokhvizi"
${CC:-cc} -O2 -Wall -Wextra -fPIC -shared -o "$work/fail_allocation.so" scripts/doors/fail_allocation.c || exit 2

# ---- Beside PyYAML's ----

# Has no file differ; with the fixes one may where libyaml refuses what docs/DIFFERENCES.md says is read then.
compare() {
    "$python" scripts/doors/clients/cloaders.py < "$1" > "$work/made" 2> "$work/count" || { cat "$work/count"; return 1; }
    if cut -c 1-300 "$work/made" | grep .; then
        return 1
    fi
    "$python" scripts/doors/clients/cloaders.py --fixes < "$1" > "$work/made" 2> "$work/count" || { cat "$work/count"; return 1; }
    if grep -v -E "did not find expected (key|'?<document start>)" "$work/made" | cut -c 1-300 | grep .; then
        return 1
    fi
    echo "$(cat "$work/count"), with the fixes $(cut -f 1 "$work/made" | sort -u | wc -l) read that libyaml refuses"
}

ls examples/*.yaml scripts/parts/whole/*.yaml scripts/parts/broken/*.yaml > "$work/texts"
find /usr /opt -xdev -type f \( -name '*.yaml' -o -name '*.yml' \) -size -200k 2> /dev/null | sort > "$work/found"
# Some of them, evenly.
awk -v most=$files -v count="$(wc -l < "$work/found")" 'int(NR * most / count) != int((NR - 1) * most / count) || most >= count' \
    "$work/found" > "$work/files"
check "texts of the repository beside PyYAML's loaders" compare "$work/texts"
check "files of this machine" compare "$work/files"
head -n 3 "$work/texts" | "$python" scripts/doors/clients/cloaders.py --turned 2> /dev/null | cut -f 1 | sort -u > "$work/turned"
[ "$(wc -l < "$work/turned")" -eq 3 ] || complain "what is turned doesn't differ"
check "streams" "$python" $here/streams.py $(cat "$work/texts")
check_turned streams "$python" $here/streams.py --turned examples/list.yaml

# ---- What was expected ----

check "what was expected" "$python" $here/expected.py 20000 1
check_turned "what was expected" "$python" $here/expected.py 10 1 --turned
check "what an error is about" "$python" $here/names.py 5000 1
check_turned "what an error is about" "$python" $here/names.py 10 1 --turned
check "keys that have to differ" "$python" $here/unique.py 20000 1
check_turned "keys that have to differ" "$python" $here/unique.py 10 1 --turned

# ---- Refused allocations ----

if "$python" -c 'import _testcapi' 2> /dev/null; then
    check "Python's allocations refused from one on" "$python" $here/refused.py after $texts
    check "one of Python's allocations refused" "$python" $here/refused.py alone $texts
    check_turned "refused allocations" "$python" $here/refused.py after --turned 1
else
    echo "not run: Python's allocations refused, since $python has no _testcapi"
fi
check "one of libc's allocations refused" env LD_PRELOAD="$work/fail_allocation.so" "$python" $here/refused.py libc $texts

# ---- Bad hands ----

check "deep texts, calls from within, cycles, leaks" "$python" $here/hostile.py $levels
check_turned "bad hands" "$python" $here/hostile.py --turned 100

# ---- In the place of PyYAML's functions ----

check "others' classes, functions, rules and tags" "$python" $here/shortcuts.py
check_turned "others' classes" "$python" $here/shortcuts.py --turned
echo "$wrong wrong"
[ $wrong -eq 0 ]
