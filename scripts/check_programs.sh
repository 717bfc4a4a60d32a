#!/bin/sh
# Checks what no proof covers, with programs as they are built, and the copies that another project takes.
#
#     sh scripts/check_programs.sh [all] [ci]
#
# The programs are those that `rt ci` or `rt run` left in crates/NAME/out; the libraries for C are built here, in minutes if
# nothing has been proved yet. With `all` the longest checks have all their cases, and each check of clients.sh is run too,
# which says what it needs; docs/GATE.md says how long everything takes without it. With `ci`, right after `rt ci` in a
# fresh checkout, the libraries are made of what it left (build_c.sh).
#
# Every check is run. One that lacks a tool, a library or a program is skipped and names it; it doesn't count as passed. A check
# that doesn't end within half an hour fails. The last line is `N passed, M failed`, and `, K skipped` if some were; the exit
# status is 1 if one failed. Tools: a C and a C++ compiler, binutils, python3 with PyYAML and Python's header, libyaml's header,
# valgrind, GNU time, qemu-x86_64 (Debian: build-essential python3-yaml python3-dev libyaml-dev valgrind time qemu-user), cargo
# with rustc, and `rt`.
#
# Run by hand after a build, and by .ci/run.
set -u
all='' ci=''
for word in "$@"; do
    case $word in
    all) all=all ;;
    ci) ci=ci ;;
    *) echo "usage: sh scripts/check_programs.sh [all] [ci]" >&2; exit 2 ;;
    esac
done
cd "$(dirname "$0")/.." || exit 2
work=$(mktemp -d) || exit 2
trap 'rm -rf "$work"' EXIT
export PYTHONDONTWRITEBYTECODE=1
passed=0
failed=0
skipped=0
begun_beside=''

is_there() {
    case $1 in
    yaml.h) echo '#include <yaml.h>' | cc -E - ;;
    PyYAML) python3 -c 'import yaml; yaml.CLoader' ;;
    Python.h) [ -e "$(python3 -c 'import sysconfig; print(sysconfig.get_path("include"))')/Python.h" ] ;;
    *-unknown-linux-gnu) ls "$(rustc --print target-libdir --target "$1")"/libcore-*.rlib ;;
    */*) [ -e "$1" ] ;;
    *) command -v "$1" ;;
    esac > /dev/null 2>&1
}

# check NAME NEED.. -- COMMAND WORD..
check() {
    name=$1
    lacks=
    shift
    while [ "$1" != -- ]; do
        is_there "$1" || lacks="$lacks ${1#"$work/"}"
        shift
    done
    shift
    if [ -n "$lacks" ]; then
        echo "skipped: $name, which lacks$lacks"
        skipped=$((skipped + 1))
        return
    fi
    begun=$(date +%s)
    if timeout 1800 "$@" > "$work/$name.said" 2>&1; then
        passed=$((passed + 1))
        echo "passed: $name, $(($(date +%s) - begun)) s: $(tail -n 1 "$work/$name.said")"
    else
        status=$?
        failed=$((failed + 1))
        tail -n 100 "$work/$name.said"
        echo "failed: $name, with status $status: $*"
    fi
}

# beside NAME NEED.. -- COMMAND WORD..: a check that goes on beside the others; finish tells of it.
beside() {
    (
        passed=0 failed=0 skipped=0
        check "$@"
        echo $passed $failed $skipped > "$work/$name.counts"
    ) > "$work/$1.told" 2>&1 &
    begun_beside="$begun_beside $1"
}

finish() {
    wait
    for name in $begun_beside; do
        cat "$work/$name.told"
        read -r more_passed more_failed more_skipped < "$work/$name.counts" || more_passed=0 more_failed=1 more_skipped=0
        passed=$((passed + more_passed)) failed=$((failed + more_failed)) skipped=$((skipped + more_skipped))
    done
}

# Runs the checks of clients.sh, which are passed, failed or skipped there.
check_clients() {
    if ! is_there "$libraries/libpokhvizi.so"; then
        echo "skipped: clients.sh, which lacks c/libpokhvizi.so"
        skipped=$((skipped + 1))
        return
    fi
    begun=$(date +%s)
    timeout 3600 sh scripts/doors/clients.sh "$libraries" > "$work/said" 2>&1
    grep -E '^(passed|failed|skipped): ' "$work/said"
    if counts=$(tail -n 1 "$work/said" | grep -E '^[0-9]+ passed, [0-9]+ failed(, [0-9]+ skipped)?$'); then
        case $counts in *", 0 failed"*) ;; *) tail -n 100 "$work/said" ;; esac
        echo "clients.sh, $(($(date +%s) - begun)) s: $counts"
        set -- $(echo "$counts" | tr -cd '0-9 ')
        passed=$((passed + $1)) failed=$((failed + $2)) skipped=$((skipped + ${3:-0}))
    else
        failed=$((failed + 1))
        tail -n 100 "$work/said"
        echo "failed: clients.sh"
    fi
}

yamltokens=crates/yamltokens/out/yamltokens
libraries=$work/c
yaml=$libraries/yaml
front="python3 examples/yaml_lines.py"
lists=2000
[ -z "$all" ] || lists=100000

beside calling rt -- sh scripts/gate/calling_steps.sh
beside plain_rust cargo python3 cc ld objcopy ar nm yaml.h -- sh scripts/gate/plain_rust.sh
check vendor sha256sum -- sh scripts/gate/vendor_checks.sh
check statuses $yamltokens -- sh scripts/gate/statuses.sh $yamltokens
check slow_pipe python3 $yamltokens -- python3 scripts/gate/slow_pipe.py $yamltokens
check inlined nm $yamltokens crates/bench_lists/out/bench_lists -- sh scripts/gate/inlined.sh $yamltokens crates/bench_lists/out/bench_lists
check sizes_by_pyyaml.py PyYAML -- python3 scripts/gate/sizes_by_pyyaml.py
check faults_of_yaml_lines.py PyYAML $yamltokens -- python3 scripts/gate/compare_errors.py $front
check differential python3 cc yaml.h $yamltokens -- env JOBS=4 sh scripts/differential/run.sh $lists

check same_machine cargo python3 -- python3 scripts/gate/same_machine.py
check libraries_for_c rt cc ld objcopy ar nm yaml.h -- sh scripts/build_c.sh "$libraries" $ci
check faults_of_yaml.c PyYAML "$yaml" -- python3 scripts/gate/compare_errors.py "$yaml"
check fronts PyYAML $yamltokens "$yaml" -- python3 scripts/gate/compare_fronts.py "$yaml"
check python PyYAML timeout truncate $yamltokens -- sh scripts/doors/python_checks.sh $yamltokens
for door in steps compose yaml; do
    check $door cc c++ python3 readelf valgrind yaml.h "$libraries/libpokhvizi.a" -- sh scripts/doors/door_checks.sh $door "$libraries"
done
check extension cc nm strip PyYAML Python.h yaml.h "$libraries/libpokhvizi.a" -- sh scripts/doors/extension_checks.sh "$libraries" $all
check release cc c++ make pkg-config readelf python3 yaml.h "$libraries/libpokhvizi.a" -- sh scripts/gate/release_checks.sh "$libraries" $all
check any_processor qemu-x86_64 cc yaml.h "$libraries/libpokhvizi.a" -- sh scripts/doors/any_processor.sh "$libraries"
if [ -n "$all" ]; then
    check platforms cargo i686-linux-gnu-gcc qemu-i386 i686-unknown-linux-gnu -- sh scripts/gate/platforms.sh
    check_clients
fi
finish

echo "$passed passed, $failed failed$([ $skipped -eq 0 ] || echo ", $skipped skipped")"
[ "$failed" -eq 0 ]
