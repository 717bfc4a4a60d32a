#!/bin/sh
# Runs the tests of other people's programs over the system's libyaml and over this one, and compares them:
#
#     sh scripts/doors/programs.sh DIR [PROGRAM..]
#
# DIR has the libraries that build_c.sh or build_plain.sh made there, and what build_libyaml.sh did, or libyaml is made. Each program runs
# twice: as it is, and with the folder DIR/libyaml before the system's (LD_LIBRARY_PATH). What the tests say has to be the same
# without times and places of files; with `own` in the table below both say the same number of tests. POKHVIZI_CHECK tells whether
# the parser was used, and LD_DEBUG that no call of yaml_parser_parse or yaml_parser_load went to another library.
#
#     program   what runs                            Debian's packages; sources by `apt-get source`
#     php       php-yaml's own tests                 php-cli php-yaml php-dev
#     r         RUnit tests that the package has     r-cran-yaml r-cran-runit; R has a libyaml of its own, so this one is not used
#     psych     Ruby's test/psych                    ruby ruby-test-unit; source ruby3.1
#     pyyaml    PyYAML's tests of its C form         python3-yaml; source pyyaml
#     perl      YAML::XS's tests                     libyaml-libyaml-perl libtest-deep-perl libtest-warn-perl libtest-base-perl
#     netplan   its tests of generator and parser    netplan.io python3-pytest python3-pytest-cov
#
# A source is taken from the folder PROGRAM_SOURCES if it is there, under the name of its package or of its archive (as yaml-2.2.4).
# A program that lacks something is skipped, and the script says what. The last line is `N passed, M failed, K skipped`; the status is 1
# if one failed, 2 for wrong words. It takes some three minutes.
#
# Run by hand after bindings/c changed.
set -u
[ $# -ge 1 ] && dir=$(realpath "$1") && [ -f "$dir/libpokhvizi.a" ] || {
    echo "usage: sh scripts/doors/programs.sh DIR [PROGRAM..], where build_c.sh or build_plain.sh made DIR" >&2
    exit 2
}
shift
wanted=" $* "
for word; do
    case " php r psych pyyaml perl netplan " in *" $word "*) ;; *) echo "usage: programs.sh DIR [php|r|psych|pyyaml|perl|netplan..]" >&2; exit 2 ;; esac
done
cd "$(dirname "$0")/../.." || exit 2
[ -e "$dir/libyaml/libyaml-0.so.2" ] || sh bindings/c/build_libyaml.sh "$dir" || exit 2
work=$(mktemp -d) || exit 2
trap 'rm -rf "$work"' EXIT
passed=0 failed=0 skipped=0
python=${PYTHON:-/usr/bin/python3}
export PYTHONDONTWRITEBYTECODE=1 LC_ALL=C.UTF-8

# The last folder of a source, which has the name of its package or of its archive.
find_source() {
    find "${PROGRAM_SOURCES:-$work}" "$work" -maxdepth 2 -type d \( -name "$1-[0-9]*" -o -name "$2" \) 2> /dev/null | sort -V | tail -n 1
}

# Puts a copy of it into `at`.
source_of() {
    at=$(find_source "$1" "$2")
    [ -n "$at" ] || (cd "$work" && apt-get source -q "$1") > "$work/source.log" 2>&1
    at=${at:-$(find_source "$1" "$2")}
    [ -n "$at" ] || return 1
    rm -rf "$work/tree"
    cp -R "$at" "$work/tree"
    at=$work/tree
}

# plain_words FILE ORDER: what is said, without what differs from run to run.
plain_words() {
    tr '\r' '\n' < "$1" | sed -E -e 's/[0-9]+([.:][0-9]+)+ ?(s|seconds|sec|wallclock secs?)?//g' -e "s#$work##g" -e 's/0x[0-9a-f]+//g' \
        -e '/^(RUNIT TEST PROTOCOL|Finished|Files=|TIME (START|END)|Time taken|# Running|Run options|TEST [0-9]+)/d' \
        -e '/tests\/s|assertions\/s|unused connection|Timing stopped/d' -e 's/ passed in .*/ passed/' -e 's/^[.FsEx]+ *\[ *[0-9]+%\]$//' |
        if [ "$2" = sorted ]; then sort; else cat; fi
}

# run USED ORDER COMMAND..: a program's tests, over both.
run() {
    used=$1 order=$2
    shift 2
    "$@" > "$work/theirs" 2>&1
    : > "$work/used"
    mkdir "$work/bound"
    POKHVIZI_CHECK="$work/used" LD_LIBRARY_PATH="$dir/libyaml" LD_DEBUG=bindings LD_DEBUG_OUTPUT="$work/bound/of" "$@" > "$work/ours" 2>&1
    grep -h -E 'symbol .yaml_parser_(parse|load)' "$work"/bound/* 2> /dev/null | grep -v 'binding file [^ ]*libyaml-0' > "$work/calls"
    here=$(grep -c " to $dir/libyaml/libyaml-0" "$work/calls")
    elsewhere=$(grep -c -v " to $dir/libyaml/libyaml-0" "$work/calls")
    rm -r "$work/bound"
    plain_words "$work/theirs" "$order" > "$work/theirs.plain"
    plain_words "$work/ours" "$order" > "$work/ours.plain"
    diff "$work/theirs.plain" "$work/ours.plain" > "$work/differ" || { head -n 20 "$work/differ"; return 1; }
    [ -s "$work/ours.plain" ] || { echo "nothing is said"; return 1; }
    case $used in
    used) [ -s "$work/used" ] && [ "$here" -gt 0 ] && [ "$elsewhere" = 0 ] || { echo "used: $(wc -l < "$work/used"), calls bound here $here, elsewhere $elsewhere"; return 1; } ;;
    own) [ ! -s "$work/used" ] && [ "$here" = 0 ] || { echo "it should have a libyaml of its own"; return 1; } ;;
    esac
    counted=$(grep -a -E -i '^(Tests passed|[0-9]+ tests|Number of test functions|TESTS|Files=|All tests|=+ .*passed)' "$work/ours" | tail -n 1 | sed 's/, Time.*//')
    echo "${counted:-$(tail -n 1 "$work/ours")}; $here calls bound here, $elsewhere elsewhere"
}

# ---- The programs ----

test_php() {
    source_of php-yaml 'yaml-2*' || { echo "its source"; return 3; }
    tests=$at/tests
    runner=$(ls /usr/lib/php/*/build/run-tests.php 2> /dev/null | tail -n 1)
    [ -n "$runner" ] || { echo php-dev; return 3; }
    php -m | grep -qx yaml || { echo php-yaml; return 3; }
    run used sorted env NO_INTERACTION=1 TEST_PHP_EXECUTABLE="$(command -v php)" php "$runner" -q --no-color "$tests"
}

test_r() {
    tests=/usr/lib/R/site-library/yaml/tests
    Rscript -e 'library(yaml); library(RUnit)' > /dev/null 2>&1 || { echo "r-cran-yaml, r-cran-runit"; return 3; }
    printf 'library(yaml); library(RUnit)\nsuite <- defineTestSuite("yaml", dirs = "%s", testFileRegexp = "^test_.+[.]R$")\nprintTextProtocol(runTestSuite(suite), showDetails = FALSE)\n' \
        "$tests" > "$work/run.R"
    # What R writes by its own emitter, which another libyaml must not replace.
    printf 'cat(as.yaml(list(a = list(1, 2)), indent.mapping.sequence = TRUE))\n' >> "$work/run.R"
    run own as_is Rscript "$work/run.R"
}

test_psych() {
    source_of ruby3.1 'ruby-3*' || { echo "its source"; return 3; }
    ruby -ryaml -e '' || { echo ruby; return 3; }
    cd "$at" || return 1
    run used as_is ruby -I"$at/test/lib" -I"$at/tool/lib" "$at/tool/test/runner.rb" --seed=1 -q "$at/test/psych"
}

test_pyyaml() {
    source_of pyyaml '[Pp]y[Yy][Aa][Mm][Ll]-[56]*' || { echo "its source"; return 3; }
    (cd / && "$python" -c 'import yaml; yaml.CLoader') || { echo python3-yaml; return 3; }
    tests=$(find "$at" -name test_yaml_ext.py | head -n 1)
    cd "${tests%/*}" || return 1
    run used as_is "$python" test_yaml_ext.py
}

test_perl() {
    source_of libyaml-libyaml-perl 'YAML-LibYAML-*' || { echo "its source"; return 3; }
    perl -MYAML::XS -MTest::Deep -MTest::Warn -MTest::Base -e 1 2> /dev/null || { echo "YAML::XS or its tests' modules"; return 3; }
    cd "$at" && mkdir -p blib/lib blib/arch || return 1
    run used as_is prove t
}

test_netplan() {
    source_of netplan.io 'netplan*-0*' || { echo "its source"; return 3; }
    "$python" -c 'import pytest' 2> /dev/null && [ -x /lib/netplan/generate ] || { echo "netplan.io, python3-pytest"; return 3; }
    cd "$at" || return 1
    rm -f sitecustomize.py
    [ -e netplan/_features.py ] || sh features_py_generator.sh > /dev/null || return 1
    run used sorted env NETPLAN_GENERATE_PATH=/lib/netplan/generate "$python" -m pytest -q -p no:cacheprovider --tb=no --no-header tests/generator tests/parser \
        tests/test_libnetplan.py tests/test_configmanager.py
}

for program in php r psych pyyaml perl netplan; do
    case $wanted in *" $program "* | "  ") ;; *) continue ;; esac
    (test_$program) > "$work/said" 2>&1
    case $? in
    0) passed=$((passed + 1)); echo "passed: $program: $(tail -n 1 "$work/said")" ;;
    3) skipped=$((skipped + 1)); echo "skipped: $program, which lacks $(tail -n 1 "$work/said")" ;;
    *) failed=$((failed + 1)); tail -n 25 "$work/said"; echo "failed: $program" ;;
    esac
done
echo "$passed passed, $failed failed, $skipped skipped"
[ $failed -eq 0 ]
