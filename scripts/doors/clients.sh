#!/bin/sh
# Runs what stands on libyaml, unsafe-libyaml and PyYAML over this parser, and again without it:
#
#     sh scripts/doors/clients.sh DIR [CHECK..]
#
# DIR has the libraries that build_c.sh, or build_plain.sh, made there. Each check compares the two. With the fixes, where it tries
# them too, and in loaders in Python some things differ: these are listed by name, with a reason, in a file of scripts/doors/clients/.
# Anything else that differs fails, as does a name that is listed and doesn't. The checks, of which all are run if none is named:
#
#     libyaml            libyaml with this parser (bindings/c/libyaml_proved.c): each of its allocations refused, parsers deleted,
#                        moved, used after a fault and by threads, also with the fixes or unique keys; bounds; libyaml's memory over 7 MB, for
#                        events and for documents; and if valgrind is there, the instructions of loads, which are at most
#                        libyaml's, or 1.03 of them if build_plain.sh made the library
#     all_lists          each list of up to five tokens, through its source and libyaml's own parser: events, documents
#                        and errors, each allocation failed in turn, bounds, parses and loads and scans in each order, under sanitizers
#     python_lists       each list of up to four tokens, through the extension of bindings/python and PyYAML's C loaders: tokens, events,
#                        nodes and errors, each allocation of libyaml_events.h failed in turn, bounds, calls in each order
#     events             libyaml's events and nodes of YAML files of this machine, broken texts and the YAML test suite,
#                        over it, with all fields, and with the fixes
#     pipe_c             events before a slow pipe's end, over it
#     pyyaml_c           PyYAML's own tests of its C form, over it, and with the fixes
#     psych              Ruby's psych over YAML files of this machine and the YAML test suite, over it, and with the fixes
#     pyyaml_pure        PyYAML's own tests of its form in Python, over bindings/python
#     loaders            the SafeLoader of bindings/python and PyYAML's over the test suite, PyYAML's test data and broken texts
#     pipe_python        events before a slow pipe's end, by that SafeLoader
#     pyyaml_ext         PyYAML's own tests of its C form, over the extension of bindings/python, and with the fixes
#     cloaders           the C loaders of bindings/python and PyYAML's over YAML files of this machine, PyYAML's test data, the
#                        test suite and broken texts, with all fields, and with the fixes
#     exact_c            this libyaml over 20,000 drawn texts: libyaml's events, nodes and errors, and with the fixes others; and over
#                        YAML files of this machine; SEED is another draw
#     exact_python       the same of the C loaders of bindings/python, and of PyYAML's
#     fields             all public fields of the parser after each call over those texts and the YAML test suite, after errors, too
#     bounds             bounds on depth, on nodes and on nodes with aliases written out, over 2,000 drawn texts: in C, by the crate,
#                        by the C loaders of bindings/python and by those in Python each refuses the same token or event, in the same
#                        words; SEED is another draw
#     unique_keys        events and nodes of 20,000 drawn texts where keys have to differ, in C and by the crate, beside a walk over
#                        PyYAML's events; SEED is another draw
#     errors             what is told of an error beside its words, over 40,000 drawn texts, by the crate, by the C loaders of
#                        bindings/python, and in C, also with the fixes; SEED is another draw
#     hostile_texts      texts that cost more than their length, and broken ones, at each door with its bounds and without, as
#                        hostile_texts.py says; bench/results/hostile.md has its figures
#     crate              the tests of bindings/rust, over those texts, and with its feature `fixes`; and over the crate `pokhvizi` in
#                        place of the library
#     loads_rust         nodes, memory over 7 MB and instructions of loads by that crate and by the original; of one large
#                        document, small documents and anchors they are at most 1.11, 1.07 and .3 of the original's, or 1.13 and
#                        1.09 if build_plain.sh made the library
#     pipe_rust          events before a slow pipe's end, by that crate
#     yaml_test_suite    the parser of unsafe-libyaml's own tests over the YAML test suite, and with the fixes
#     serde_yaml         serde_yaml's own tests
#
# Sources are those of Debian's packages pyyaml (6.0.2 or later) and libyaml-pp-perl (which has the YAML test suite), by
# `apt-get source`, which needs deb-src lines; or their .orig.tar files in the folder that CLIENT_SOURCES names. Crates are
# those of Debian's packages librust-unsafe-libyaml-dev, librust-serde-yaml-dev, librust-serde-derive-dev, librust-anyhow-dev
# and librust-indoc-dev (release 13 and later), or those in the folder that CLIENT_CRATES names. PYTHON and RUBY are Debian's, whose YAML part
# links libyaml; SAMPLE is how many files of the machine are read, 2000 if it isn't set.
#
# A check that lacks something is skipped, and says what it lacks. The last line is `N passed, M failed`, and
# `, K skipped` if some were; the exit status is 1 if one failed, 2 for wrong words.
#
# Run by hand after bindings changed, and by check_programs.sh with `all`.
set -u
[ $# -ge 1 ] && dir=$(realpath "$1") && [ -f "$dir/libpokhvizi.so" ] && [ -f "$dir/libpokhvizi.a" ] || {
    echo "usage: sh scripts/doors/clients.sh DIR [CHECK..], where build_c.sh or build_plain.sh made DIR" >&2
    exit 2
}
shift
cd "$(dirname "$0")/../.." || exit 2
top=$PWD
lists=$top/scripts/doors/clients
work=$(mktemp -d) || exit 2
trap 'rm -rf "$work"' EXIT
python=${PYTHON:-/usr/bin/python3}
ruby=${RUBY:-ruby}
crates=${CLIENT_CRATES:-/usr/share/cargo/registry}
suite=$work/libyaml-pp-perl/test-suite/yaml-test-suite-data
tests=$work/pyyaml/tests/legacy_tests
proved=$work/libyaml
export PYTHONDONTWRITEBYTECODE=1 POKHVIZI_LIBRARY="$dir/libpokhvizi.so" POKHVIZI_DIR="$dir"
export CARGO_HOME="$work/cargo" CARGO_TARGET_DIR="$work/target"
export RUSTFLAGS="--cap-lints allow"  # the originals are older than some lints
passed=0
failed=0
skipped=0

# ---- What the checks need ----

# Unpacks the source of one of Debian's packages.
source_of() {
    mkdir -p "$work/$1" "$work/sources"
    for folder in "${CLIENT_SOURCES:-$work/sources}" "$work/sources"; do
        archive=$(find "$folder" -name "$1_*.orig.tar.*" | sort | tail -n 1)
        [ -n "$archive" ] && break
        (cd "$work/sources" && apt-get source -q --download-only "$1") > "$work/sources/$1.log" 2>&1
    done
    archive=${archive:-$(find "$work/sources" -name "$1_*.orig.tar.*" | sort | tail -n 1)}
    [ -n "$archive" ] && tar xf "$archive" -C "$work/$1" --strip-components=1
}

is_there() {
    case $1 in
    pyyaml) [ -e "$tests" ] || { source_of pyyaml && [ -e "$tests" ]; } ;;
    libyaml-pp-perl) [ -e "$suite" ] || { source_of libyaml-pp-perl && [ -e "$suite" ]; } ;;
    yaml.h) echo '#include <yaml.h>' | cc -E - ;;
    PyYAML) (cd / && "$python" -c 'import yaml; yaml.CLoader') ;;
    proved_libyaml) [ -e "$proved" ] || build_libyaml ;;
    _yaml.abi3.so) [ -e "$work/python/pokhvizi/_yaml.abi3.so" ] || build_extension ;;
    events) [ -e "$work/events" ] || cc -O2 -Wall -Wextra -Werror -o "$work/events" scripts/doors/clients/events.c -lyaml -ldl ;;
    psych) $ruby -e 'require "psych"; Psych::LIBYAML_VERSION' ;;
    unsafe-libyaml | serde_yaml | serde_derive | anyhow | indoc) set -- "$crates/$1-"*/Cargo.toml && [ -e "$1" ] ;;
    *) command -v "$1" ;;
    esac > /dev/null 2>&1
}

# check NAME NEED.. -- COMMAND WORD..
check() {
    name=$1
    lacks=
    shift
    case " $wanted " in *" $name "* | "  ") ;; *) return ;; esac
    while [ "$1" != -- ]; do
        is_there "$1" || lacks="$lacks $1"
        shift
    done
    shift
    if [ -n "$lacks" ]; then
        echo "skipped: $name, which lacks$lacks"
        skipped=$((skipped + 1))
    elif "$@" > "$work/said" 2>&1; then
        passed=$((passed + 1))
        echo "passed: $name: $(tail -n 1 "$work/said")"
    else
        failed=$((failed + 1))
        tail -n 40 "$work/said"
        echo "failed: $name"
    fi
}

# as_listed NAMES LIST WHAT [HOW]: fails where the names in a file are not those of a list, whose lines are a name, two spaces and a
# reason; says of what and how they differ.
as_listed() {
    grep -v '^#' "$lists/$2.txt" | sed 's/  .*//' | sort -u > "$work/listed"
    sort -u "$1" | diff "$work/listed" - || { echo "< listed and alike, > differs and not listed"; return 1; }
    echo "$3, of which $(wc -l < "$work/listed") differ${4:+ $4} as scripts/doors/clients/$2.txt says"
}

# ---- libyaml with this parser ----

build_libyaml() {
    sh bindings/c/build_libyaml.sh "$dir" && cp -R "$dir/libyaml" "$proved"
}

# Writes 350 KB of documents, so often.
documents() {
    for again in $(seq "$1"); do
        for number in $(seq 680); do
            echo ---
            cat examples/compose.yaml
        done
    done
}

# compare_memory MODE LEAST: the same count, which is more, in libyaml's memory and 400 KB; says so.
compare_memory() {
    set -- "$1" "$2" $("$work/events" "$1" < "$work/text.yaml") $(LD_LIBRARY_PATH=$proved "$work/events" "$1" < "$work/text.yaml")
    if [ "$3" -gt "$2" ] && [ "$3" = "$5" ] && [ "$6" -le $(($4 + 400)) ]; then
        memory="$memory; $1: $5 in $6 KB, libyaml in $4"
    else
        echo "$1: $3 in $4 KB plainly, $5 in $6"
        return 1
    fi
}

# Three texts of one document, of small documents, and of anchors.
write_texts() {
    awk 'BEGIN { for (n = 0; n < 8000; n++) printf "- {a%d: b%d}\n- c%d\n- key: value %d\n  list: [1, two, \047three\047]\n", n, n, n, n }' \
        > "$work/plain.yaml"
    awk 'BEGIN { for (n = 0; n < 2000; n++) printf "---\nname: document %d\nvalues:\n- first\n- {a: b, c: [d, e]}\ntext: \"quoted\"\n", n }' \
        > "$work/small.yaml"
    awk 'BEGIN { for (n = 0; n < 1800; n++) printf "- &a%d {name: value %d, list: [a, b]}\n- *a%d\n- some words\n", n, n, n }' \
        > "$work/anchors.yaml"
}

# The instructions of a command.
instructions() {
    valgrind --tool=callgrind --callgrind-out-file=/dev/null --log-file="$work/counted" "$@" > /dev/null &&
        sed -n 's/.*Collected : //p' "$work/counted"
}

# compare_instructions TEXT BOUND PLAIN PROVED: what is proved has at most so many times the instructions; adds how many to ratios.
compare_instructions() {
    ratios="$ratios $(awk "BEGIN { printf \"%.3f\", $4 / $3 }")"
    awk "BEGIN { exit !($3 > 1000000 && $4 <= $2 * $3) }" || { echo "loads of $1: $4 instructions, and $3 plainly"; return 1; }
}

compare_loads() {
    write_texts
    most=1
    [ -e "$dir/pokhvizi_module.o" ] || most=1.03  # of rustc, which leaves tests of indices in
    for text in plain small anchors; do
        compare_instructions $text $most "$(instructions "$work/events" loads < "$work/$text.yaml")" \
            "$(LD_LIBRARY_PATH=$proved instructions "$work/events" loads < "$work/$text.yaml")" || return 1
    done
    memory="$memory; loads have$ratios of libyaml's instructions"
}

# within DEPTH NODES EXPANDED: the calls for bounds, within these.
within() {
    env "LD_LIBRARY_PATH=$proved" POKHVIZI_MAX_DEPTH="$1" POKHVIZI_MAX_NODES="$2" POKHVIZI_MAX_EXPANDED="$3" "$work/libyaml_calls" bounds
}

# A set-user-ID program that another user starts takes nothing from the environment: neither a name that is unknown nor a file to be
# written. Only root can try it.
set_user_id() {
    [ "$(id -u)" = 0 ] && command -v setpriv > /dev/null || return 0
    secure=$(mktemp -d) && chmod 755 "$secure" && cp -R "$proved/." "$secure" || return 1
    printf '%s\n' '#include <yaml.h>' 'int main(void) { yaml_parser_t p; yaml_event_t e; if (!yaml_parser_initialize(&p)) return 7;' \
        'yaml_parser_set_input_string(&p, (const unsigned char *)"[[a]]", 5); int n = 0, done;' \
        'do { if (!yaml_parser_parse(&p, &e)) return 1; done = e.type == YAML_STREAM_END_EVENT; yaml_event_delete(&e); n++; } while (!done);' \
        'return n == 9 ? 0 : 6; }' > "$secure/use.c"
    echo kept > "$secure/file"
    cc -O1 -o "$secure/use" "$secure/use.c" -L"$secure" -Wl,-rpath,"$secure" -lyaml || return 1
    as_other="setpriv --reuid=65534 --regid=65534 --clear-groups env POKHVIZI_MAX_DEPTH=1 POKHVIZI_CHECK=$secure/file"
    chmod 4755 "$secure/use"
    $as_other POKHVIZI_TYPO=1 "$secure/use"
    with=$?
    chmod 755 "$secure/use"
    $as_other POKHVIZI_TYPO=1 "$secure/use" 2> /dev/null
    typo=$?
    $as_other "$secure/use"
    set -- "$with $typo $?" "$(cat "$secure/file")"
    rm -r "$secure"
    [ "$1 $2" = "0 2 1 kept" ] || { echo "a set-user-ID program: $1, $2"; return 1; }
}

libyaml() {
    memory='' ratios=''
    cc -O1 -g -Wall -Wextra -Werror -fPIC -shared -o "$work/libconstructor.so" scripts/doors/clients/constructor.c -lyaml &&
        cc -O1 -g -Wall -Wextra -Werror -Ibindings/c/include -o "$work/libyaml_calls" scripts/doors/clients/libyaml_calls.c \
            "$dir/libpokhvizi.a" -L"$work" -Wl,-rpath,"$work" -lconstructor -lyaml -lpthread -ldl || return 1
    if POKHVIZI_FIXES=1 "$work/libyaml_calls" > "$work/calls" 2>&1; then
        echo "without this parser, the calls should differ"
        return 1
    fi
    documents 20 > "$work/text.yaml"
    compare_memory memory 900000 && compare_memory loads 400000 || return 1
    ! command -v valgrind > /dev/null || compare_loads || return 1
    for bounds in '21 30 40' '20 31 40' '20 30 41' '20 30 39'; do
        if within $bounds > "$work/calls" 2>&1; then
            echo "with other bounds the calls should differ: $bounds"
            return 1
        fi
    done
    env POKHVIZI_MAX_NODE=1 "LD_LIBRARY_PATH=$proved" "$work/libyaml_calls" > "$work/calls" 2>&1
    [ "$? $(cat "$work/calls")" = "2 libyaml-0.so.2, proved: the environment's POKHVIZI_MAX_NODE is unknown" ] ||
        { echo "an unknown bound: $(cat "$work/calls")"; return 1; }
    for words in 'MAX_DEPTH=2x' 'MAX_DEPTH=' 'MAX_NODES=-1' 'MAX_EXPANDED=1e6'; do
        env "POKHVIZI_$words" "LD_LIBRARY_PATH=$proved" "$work/libyaml_calls" > "$work/calls" 2>&1
        [ "$? $(cat "$work/calls")" = "2 libyaml-0.so.2, proved: POKHVIZI_${words%=*} is no number: ${words#*=}" ] ||
            { echo "a bound that is no number: $(cat "$work/calls")"; return 1; }
    done
    within 20 30 40 && set_user_id || return 1
    said=$(LD_LIBRARY_PATH=$proved "$work/libyaml_calls") || { echo "$said"; return 1; }
    with=$(POKHVIZI_FIXES=1 LD_LIBRARY_PATH=$proved "$work/libyaml_calls") || { echo "with the fixes: $with"; return 1; }
    keys=$(POKHVIZI_UNIQUE_KEYS=1 LD_LIBRARY_PATH=$proved "$work/libyaml_calls") || { echo "with unique keys: $keys"; return 1; }
    [ "${keys%% *}" -gt "${said%% *}" ] || { echo "no key takes memory: $keys"; return 1; }
    mkdir "$work/over" && cp "$dir/libpokhvizi.a" "$work/over" && LIBYAML_A='' sh bindings/c/build_libyaml.sh "$work/over" || return 1
    over=$(LD_LIBRARY_PATH=$work/over/libyaml "$work/libyaml_calls") || { echo "over libyaml's shared library: $over"; return 1; }
    echo "$said; with the fixes $with; with unique keys ${keys%% *} refused$memory"
}

# Each short list of tokens, through libyaml_proved.c and libyaml's own parser. A library that frees no anchor is seen.
all_lists() {
    words='-O1 -g -D_GNU_SOURCE -Wall -Wextra -Werror -Ibindings/c/include -fsanitize=address,undefined -fno-sanitize-recover=all'
    mkdir -p "$work/turned_c/scripts/doors/clients" "$work/turned_c/bindings/c"
    cp scripts/doors/clients/all_lists.c scripts/doors/clients/token_lists.h "$work/turned_c/scripts/doors/clients"
    cp bindings/c/libyaml_proved.c "$work/turned_c/bindings/c"
    sed 's/^        free(held->anchor);$//' bindings/c/libyaml_events.h > "$work/turned_c/bindings/c/libyaml_events.h"
    ! cmp -s bindings/c/libyaml_events.h "$work/turned_c/bindings/c/libyaml_events.h" || { echo "nothing is turned"; return 1; }
    cc $words -o "$work/all_lists" scripts/doors/clients/all_lists.c "$dir/libpokhvizi.a" -lyaml -ldl &&
        cc $words -o "$work/all_lists_turned" "$work/turned_c/scripts/doors/clients/all_lists.c" "$dir/libpokhvizi.a" -lyaml -ldl || return 1
    if ASAN_OPTIONS=detect_leaks=0 "$work/all_lists_turned" 3 2 1 > "$work/calls" 2>&1; then
        echo "a library that frees no anchor should be seen"
        return 1
    fi
    ASAN_OPTIONS=detect_leaks=0 "$work/all_lists" 5 4 3 > "$work/calls" 2>&1
    set -- $?
    tail -n 40 "$work/calls"
    return "$1"
}

# lists_extension FOLDER SOURCES EVENTS: the package with an extension of these sources and this libyaml_events.h, for python_lists.py.
lists_extension() {
    mkdir -p "$1"
    cp -R bindings/python/src/pokhvizi "$1"
    cc -std=gnu11 -O1 -g -Wall -Wextra -Werror -fPIC -shared -fvisibility=hidden '-DFIRST_ROOM(usual)=1' -Dmalloc=lists_malloc \
        -Drealloc=lists_realloc -Dcalloc=lists_calloc -I"$("$python" -c 'import sysconfig; print(sysconfig.get_path("include"))')" -I"$3" \
        -Ibindings/c/include -Wl,--exclude-libs,ALL -o "$1/pokhvizi/_yaml.abi3.so" "$2"/*.c "$dir/libpokhvizi.a" -lyaml
}

# lists_run FOLDER WORD..: python_lists.py over the package in a folder. No freed block counts as used.
lists_run() {
    folder=$1
    shift
    env GLIBC_TUNABLES=glibc.malloc.tcache_count=0 "LD_PRELOAD=$work/python_lists.so" PYTHONPATH="$folder:$lists" \
        "$python" "$lists/python_lists.py" "$@" > "$work/calls" 2>&1
}

# The same of the extension for Python, and PyYAML's. One that keeps an anchor, in its events or its documents, is seen.
python_lists() {
    cc -O1 -g -D_GNU_SOURCE -Wall -Wextra -Werror -fPIC -shared -o "$work/python_lists.so" scripts/doors/clients/python_lists.c &&
        lists_extension "$work/lists" bindings/python/src/_yaml bindings/c || return 1
    for turned in bindings/python/src/_yaml/documents.c bindings/c/libyaml_events.h; do
        rm -rf "$work/turned_python"
        mkdir -p "$work/turned_python"
        cp -R bindings/python/src/_yaml bindings/c "$work/turned_python"
        at=$work/turned_python/$(basename "$(dirname "$turned")")/$(basename "$turned")
        sed -i -e '/^    Py_XDECREF(anchor);$/d' -e '/^        free(held->anchor);$/d' "$at"
        ! cmp -s "$turned" "$at" || { echo "nothing is turned"; return 1; }
        lists_extension "$work/turned_python/lists" "$work/turned_python/_yaml" "$work/turned_python/c" || return 1
        if lists_run "$work/turned_python/lists" 3 0 0 || ! grep -q '^wrong: ' "$work/calls"; then
            echo "what is turned should be seen: $turned"
            return 1
        fi
    done
    lists_run "$work/lists" 4 2 1
    set -- $?
    tail -n 40 "$work/calls"
    return "$1"
}

# ---- Exact parsing ----

# Draws 20,000 texts.
exact_texts() {
    [ -e "$work/exact_names" ] && return
    mkdir -p "$work/exact"
    python3 "$lists/exact.py" write "$work/exact" 20000 "${SEED:-1}" > "$work/exact_names"
}

# compare_exact: of $work/plain, $work/fixes and $work/exact_read; that the check sees a parser with the fixes, too.
compare_exact() {
    if python3 "$lists/exact.py" compare "$work/plain" "$work/fixes" "$work/fixes" > "$work/turned"; then
        echo "a parser with the fixes passes"
        return 1
    fi
    python3 "$lists/exact.py" compare "$work/plain" "$work/exact_read" "$work/fixes"
}

exact_c() {
    exact_texts || return 1
    for what in files nodes; do
        "$work/events" $what < "$work/exact_names" > "$work/plain" &&
            POKHVIZI_FIXES=1 LD_LIBRARY_PATH=$proved "$work/events" $what < "$work/exact_names" > "$work/fixes" &&
            LD_LIBRARY_PATH=$proved "$work/events" $what < "$work/exact_names" > "$work/exact_read" || return 1
        drawn=$(compare_exact) || { echo "$drawn"; return 1; }
    done
    name_files > "$work/files"
    "$work/events" files < "$work/files" > "$work/plain" 2> "$work/count" &&
        LD_LIBRARY_PATH=$proved "$work/events" files < "$work/files" > "$work/exact_read" || return 1
    found=$(python3 "$lists/exact.py" alike "$work/plain" "$work/exact_read") || { echo "$found"; return 1; }
    echo "$drawn; $found"
}

# The system's libyaml, by the path that the dynamic linker finds, and this one.
fields() {
    exact_texts && cc -O2 -Wall -Wextra -Werror -o "$work/fields" scripts/doors/clients/fields.c -ldl || return 1
    theirs=$(ldd "$work/events" | sed -n 's/.*libyaml-0\.so\.2 => \([^ ]*\).*/\1/p')
    is_there libyaml-pp-perl && find "$suite" -name in.yaml | sort > "$work/field_names"
    cat "$work/exact_names" >> "$work/field_names"
    if POKHVIZI_FIXES=1 "$work/fields" "$theirs" "$proved/libyaml-0.so.2" < "$work/field_names" > "$work/turned"; then
        echo "a parser with the fixes passes"
        return 1
    fi
    "$work/fields" "$theirs" "$proved/libyaml-0.so.2" < "$work/field_names"
}

exact_python() {
    exact_texts || return 1
    for how in plain fixes exact_read; do
        PYTHONPATH="$work/python" "$python" "$lists/exact.py" ${how%_read} < "$work/exact_names" > "$work/$how" || return 1
    done
    compare_exact
}

# ---- Bounds ----

# bounded DOOR WHAT DEPTH NODES EXPANDED: what a door reads of the drawn texts, by events or by nodes; a bound that is `-` is none.
bounded() {
    case $1 in
    c)
        (
            [ "$3" = - ] || export "POKHVIZI_MAX_DEPTH=$3"
            [ "$4" = - ] || export "POKHVIZI_MAX_NODES=$4"
            [ "$5" = - ] || export "POKHVIZI_MAX_EXPANDED=$5"
            LD_LIBRARY_PATH=$proved "$work/events" "$(echo "$2" | sed s/events/files/)"
        )
        ;;
    rust) "$CARGO_TARGET_DIR/release/bounds" "$2" "$3" "$4" "$5" ;;
    *) PYTHONPATH=$work/python "$python" "$lists/bounds.py" read "$1" "$2" "$3" "$4" "$5" ;;
    esac 2> "$work/count"
}

# bounds_of DOOR LOADER: how often the door refused, for each of four reasons, and how often not.
bounds_of() {
    for what in events nodes; do
        bounded "$1" $what - - - < "$work/bounds_names" > "$work/free_$what" || { cat "$work/count"; return 1; }
        set -- "$1" "$2"
        for bounds in '0 - -' '1 3 -' '2 - 4' '3 6 -' '4 10 11' '- 0 -' '- 1 -' '- 2 1' '- 5 5' '- 12 20' '31 - -' '32 33 100' \
            '33 - -' '64 - -' '65 66 -' '- - 0' '- - 1' '- - 3' '- - 9' '- - 33' '- - 1000' \
            '- - 9223372036854775806' '- - 9223372036854775807'; do
            set -- "$@" $bounds "$work/bound_$(echo $bounds | tr ' ' _)"
            bounded "$1" $what $bounds < "$work/bounds_names" > "$work/bound_$(echo $bounds | tr ' ' _)" || { cat "$work/count"; return 1; }
        done
        how=$1 loader=$2
        shift 2
        "$python" "$lists/bounds.py" compare "$loader" $what "$work/free_events" "$work/free_$what" "$@" > "$work/stopped" ||
            { echo "$how, $what: $(cat "$work/stopped")"; return 1; }
        cat "$work/stopped" >> "$work/all_stopped"
        set -- "$how" "$loader"
    done
    for bounds in '3 7 - bound_3_6_-' '- - 8 bound_-_-_9'; do
        set -- "$1" "$2" ${bounds% *} "$work/${bounds##* }"
        if "$python" "$lists/bounds.py" compare "$2" nodes "$work/free_events" "$work/free_nodes" "$3" "$4" "$5" "$6" > "$work/turned"; then
            echo "other bounds pass"
            return 1
        fi
    done
}

bounds() {
    build_bounds bounds '' || return 1
    mkdir -p "$work/bounds"
    "$python" "$lists/bounds.py" write "$work/bounds" 2000 "${SEED:-1}" > "$work/all_names"
    : > "$work/counts"
    for door in c rust CLoader Loader; do
        : > "$work/all_stopped"
        cp "$work/all_names" "$work/bounds_names"
        if [ $door = Loader ]; then  # PyYAML's scanner in Python takes its time
            head -n 500 "$work/all_names" > "$work/bounds_names"
            bounds_of $door Loader || return 1
        else
            bounds_of $door CLoader || return 1
            awk '{ for (i = 1; i <= 5; i++) sum[i] += $i } END { print sum[1], sum[2], sum[3], sum[4], sum[5] }' "$work/all_stopped" >> "$work/counts"
        fi
    done
    set -- $(uniq "$work/counts")
    [ $# -eq 5 ] && [ "$1" -gt 1000 ] && [ "$2" -gt 1000 ] && [ "$3" -gt 1000 ] && [ "$4" -gt 300 ] ||
        { echo "doors over one scanner refuse other texts: $(cat "$work/counts")"; return 1; }
    echo "2000 texts within 23 choices of bounds, by events and nodes, at each door: $1 times too many levels, $2 too many nodes, $3 too many with aliases written out, $4 an alias within its own node, $5 none of these"
}

# Drawn texts where keys have to differ, parsed and loaded. Texts with other marks, and what is read without, are seen.
unique_keys() {
    build_bounds bounds '' || return 1
    mkdir -p "$work/keys"
    "$python" "$lists/unique_keys.py" write "$work/keys" 20000 "${SEED:-1}" > "$work/keys_names" || return 1
    told=
    for what in events nodes; do
        LD_LIBRARY_PATH=$proved "$work/events" "$(echo $what | sed s/events/files/)" < "$work/keys_names" > "$work/keys_free" 2> "$work/count" &&
            LD_LIBRARY_PATH=$proved POKHVIZI_UNIQUE_KEYS=1 "$work/events" "$(echo $what | sed s/events/files/)" < "$work/keys_names" \
                > "$work/keys_c" 2> "$work/count" &&
            "$CARGO_TARGET_DIR/release/bounds" $what - - - < "$work/keys_names" > "$work/keys_free_rust" &&
            "$CARGO_TARGET_DIR/release/bounds" unique_$what - - - < "$work/keys_names" > "$work/keys_rust" || return 1
        for turned in "$work/keys_c --turned" "$work/keys_free"; do
            # shellcheck disable=SC2086
            if "$python" "$lists/unique_keys.py" compare $what "$work/keys_free" $turned < "$work/keys_names" > "$work/count" 2>&1; then
                echo "what is turned passes: $turned"
                return 1
            fi
        done
        said=$("$python" "$lists/unique_keys.py" compare $what "$work/keys_free" "$work/keys_c" < "$work/keys_names") || return 1
        "$python" "$lists/unique_keys.py" compare $what "$work/keys_free_rust" "$work/keys_rust" < "$work/keys_names" > "$work/count" || return 1
        [ "$(cat "$work/count")" = "$said" ] && [ "${said% *}" -gt 1000 ] || { echo "in C $said, by the crate $(cat "$work/count")"; return 1; }
        told="$told, by $what ${said% *}"
    done
    echo "of $(wc -l < "$work/keys_names") texts have a key twice$told"
}

# What is told of the errors of drawn texts, by the crate, by the C loaders for Python, and in C, which tells names alone. With the
# fixes another thing is.
errors() {
    build_bounds errors_exact '' errors && build_bounds errors_fixes '"fixes"' errors && exact_texts || return 1
    mkdir -p "$work/named"
    "$python" scripts/doors/extension/names.py write "$work/named" 20000 "${SEED:-1}" > "$work/errors_names" || return 1
    cat "$work/exact_names" >> "$work/errors_names"
    told=
    for how in exact fixes; do
        "$CARGO_TARGET_DIR/release/errors_$how" < "$work/errors_names" > "$work/errors_$how" &&
            PYTHONPATH=$work/python "$python" "$lists/errors.py" $how < "$work/errors_names" > "$work/errors_python_$how" &&
            POKHVIZI_FIXES=$(echo $how | sed 's/exact/0/') LD_LIBRARY_PATH=$proved "$work/events" names < "$work/errors_names" > "$work/errors_c" ||
            return 1
        said=$("$python" "$lists/errors.py" compare "$work/errors_$how" "$work/errors_python_$how") || { echo "$said"; return 1; }
        sed 's/: .* | / | /' "$work/errors_$how" | cmp - "$work/errors_c" || return 1
        told="$told${told:+; with the fixes }$said"
    done
    if "$python" "$lists/errors.py" compare "$work/errors_exact" "$work/errors_python_fixes" > "$work/turned"; then
        echo "a parser with the fixes passes"
        return 1
    fi
    echo "$told"
}

hostile_texts() {
    build_bounds bounds '"fixes"' && build_bounds bounds_exact '' || return 1
    if "$python" scripts/doors/hostile_texts.py --turned "yaml=$dir/yaml" > "$work/turned"; then
        echo "what is turned passes"
        return 1
    fi
    "$python" scripts/doors/hostile_texts.py "yaml=$dir/yaml" "libyaml=$proved" "events=$work/events" "c_loader=$work/python" \
        "loader=$work/python" "rust=$CARGO_TARGET_DIR/release/bounds" "rust_exact=$CARGO_TARGET_DIR/release/bounds_exact" \
        "yamltokens=$top/crates/yamltokens/out/yamltokens"
}

# Names YAML files of this machine.
name_files() {
    find / -xdev \( -path /proc -o -path /tmp -o -path /sys \) -prune -o -type f \( -name '*.yaml' -o -name '*.yml' \) \
        -size -1000k -print 2> /dev/null | sort | head -n "${SAMPLE:-2000}"
}

# Leaves the names of the texts in a file that differ from those in another; a line `file NAME` begins each.
differing_files() {
    for list in "$1" "$2"; do
        awk '/^file / { name = $2; next } { print name "\t" $0 }' "$list" > "$list.named"
    done
    diff "$1.named" "$2.named" | sed -n 's/^[<>] \([^\t]*\)\t.*/\1/p' | sort -u
}

events() {
    name_files > "$work/files"
    (cd "$suite" && find . -name in.yaml | sort) > "$work/cases"
    find "$top/scripts/parts/broken" "$top/scripts/parts/whole" "$top/examples" -name '*.yaml' | sort > "$work/texts"
    : > "$work/differ"
    for what in files nodes; do
        for list in files cases texts; do
            (cd "$suite" && "$work/events" $what < "$work/$list") > "$work/plain_$list" || return 1
            (cd "$suite" && LD_LIBRARY_PATH=$proved "$work/events" $what < "$work/$list") > "$work/proved_$list" || return 1
            (cd "$suite" && POKHVIZI_FIXES=1 LD_LIBRARY_PATH=$proved "$work/events" $what < "$work/$list") > "$work/fixes_$list" || return 1
            cmp "$work/plain_$list" "$work/proved_$list" || { differing_files "$work/plain_$list" "$work/proved_$list"; return 1; }
            differing_files "$work/plain_$list" "$work/fixes_$list" | sed -E 's#^\./(.*)/in.yaml$#\1#' >> "$work/differ"
        done
    done
    grep -x -F -f "$work/files" "$work/differ" > "$work/differ_files"
    while read -r file; do
        # With the fixes a file of the machine may be read where libyaml refuses what docs/DIFFERENCES.md says is read so.
        echo "$file" | "$work/events" files 2>&1 | grep -q -E "^error 4 did not find expected (key|<document start>)" ||
            { echo "$file is read otherwise"; return 1; }
    done < "$work/differ_files"
    grep -v -x -F -f "$work/files" "$work/differ" > "$work/differ_cases"
    as_listed "$work/differ_cases" psych "$(wc -l < "$work/files") files as by libyaml, and $(sort -u "$work/differ_files" | wc -l) that it refuses read with the fixes; $(cat "$work/cases" "$work/texts" | wc -l) cases and texts as by it" 'with the fixes'
}

# pipe WORD.. -- WORD..: the events of the first command come with their lines; those of the second, which reads to the end, don't.
pipe() {
    on_time=
    while [ "$1" != -- ]; do
        on_time="$on_time $1"
        shift
    done
    shift
    "$python" "$lists/slow_pipe.py" $on_time || return 1
    if SECONDS=2 "$python" "$lists/slow_pipe.py" "$@" > "$work/late"; then
        echo "late events are not seen"
        return 1
    fi
}

pipe_c() {
    pipe env "LD_LIBRARY_PATH=$proved" "$work/events" pipe -- env "LD_LIBRARY_PATH=$proved" "$work/events" late
}

# The names of the tests that failed, in PyYAML's own report: the function and the files, without folders.
failures_of() {
    sed -n -E 's/^([a-z_]+\(.*\)): (FAILURE|ERROR)$/\1/p' "$1" | sed -E 's#(\(|, )[^(,]*/#\1#g'
}

count_of() {
    sed -n 's/^TESTS: //p' "$1"
}

# Runs PyYAML's tests twice by the two commands that are left and right of `--`; the failures that only the second has are listed.
pyyaml_tests() {
    (cd "$tests" && PYTHONPATH=$work/python $1) > "$work/plain" 2>&1
    (cd "$tests" && PYTHONPATH=$work/python $2) > "$work/proved" 2>&1
    [ -n "$(count_of "$work/plain")" ] && [ "$(count_of "$work/plain")" = "$(count_of "$work/proved")" ] || {
        tail -n 5 "$work/plain" "$work/proved"
        return 1
    }
    failures_of "$work/plain" | sort > "$work/plain_failures"
    failures_of "$work/proved" | sort | comm -13 "$work/plain_failures" - > "$work/differ"
    as_listed "$work/differ" "$3" "$(count_of "$work/proved") tests"
}

pyyaml_c() {
    said=$(cd / && POKHVIZI_FIXES=1 LD_LIBRARY_PATH=$proved "$python" -c 'import yaml; print(len(list(yaml.parse("a\n...\nb\n", yaml.CLoader))))')
    [ "$said" = 8 ] || { echo "$python doesn't take libyaml from its shared library: $said"; return 1; }
    for fixes in 0 1; do
        pyyaml_tests "$python test_yaml_ext.py" "env POKHVIZI_FIXES=$fixes LD_LIBRARY_PATH=$proved $python test_yaml_ext.py" pyyaml_c || return 1
    done
}

psych() {
    [ "$($ruby "$lists/psych.rb" --bare) $(POKHVIZI_FIXES=1 LD_LIBRARY_PATH=$proved $ruby "$lists/psych.rb" --bare)" = "refused read" ] ||
        { echo "$ruby doesn't take libyaml from its shared library"; return 1; }
    name_files > "$work/files"
    (cd "$suite" && find . -name in.yaml | sort) > "$work/cases"
    for list in files cases; do
        (cd "$suite" && $ruby "$lists/psych.rb" < "$work/$list") > "$work/plain_$list" || return 1
        (cd "$suite" && LD_LIBRARY_PATH=$proved $ruby "$lists/psych.rb" < "$work/$list") > "$work/proved_$list" || return 1
        (cd "$suite" && POKHVIZI_FIXES=1 LD_LIBRARY_PATH=$proved $ruby "$lists/psych.rb" < "$work/$list") > "$work/fixes_$list" || return 1
        diff "$work/plain_$list" "$work/proved_$list" || return 1
        diff "$work/plain_$list" "$work/fixes_$list" | sed -n 's/^< //p' > "$work/differ_$list"
    done
    # With the fixes a file of the machine may be read where libyaml refuses what docs/DIFFERENCES.md says is read so.
    if grep -v -E "refused: did not find expected (key|<document start>)" "$work/differ_files"; then
        echo "files of this machine are read otherwise"
        return 1
    fi
    sed -E 's#^\./(.*)/in.yaml\t.*#\1#' "$work/differ_cases" > "$work/differ"
    as_listed "$work/differ" psych "$(wc -l < "$work/files") files as by libyaml, and $(wc -l < "$work/differ_files") that it refuses read with the fixes; $(wc -l < "$work/cases") cases as by it" 'with the fixes'
}

# ---- PyYAML in Python ----

pyyaml_pure() {
    pyyaml_tests "$python $lists/pyyaml_pure.py plain" "$python $lists/pyyaml_pure.py proved" pyyaml_pure
}

loaders() {
    set -- "$suite" "$tests/data" scripts/parts/broken scripts/parts/whole
    PYTHONPATH=$work/python "$python" "$lists/loaders.py" "$@" > "$work/made" 2> "$work/count" || { cat "$work/count"; return 1; }
    PYTHONPATH=$work/python "$python" "$lists/loaders.py" --turned scripts/parts/broken > "$work/turned" 2>&1
    [ "$(grep -c documents "$work/turned")" -gt 0 ] || { echo "what is turned doesn't differ"; return 1; }
    cut -f 1 "$work/made" > "$work/differ"
    as_listed "$work/differ" loaders "$(cat "$work/count")"
}

pipe_python() {
    set -- env "PYTHONPATH=$work/python" "$python" "$lists/events.py"
    pipe "$@" proved -- "$@" late
}

build_extension() {
    PYTHON_INCLUDE=${PYTHON_INCLUDE:-$("$python" -c 'import sysconfig; print(sysconfig.get_path("include"))')} \
        sh bindings/python/build_extension.sh "$dir" && cp "$dir/_yaml.abi3.so" "$work/python/pokhvizi"
}

pyyaml_ext() {
    for how in proved fixes; do
        pyyaml_tests "$python $lists/pyyaml_ext.py plain" "$python $lists/pyyaml_ext.py $how" pyyaml_c || return 1
    done
}

cloaders() {
    name_files > "$work/files"
    (cd "$suite" && find . -name in.yaml | sort) > "$work/cases"
    find "$tests/data" "$top/scripts/parts/broken" "$top/scripts/parts/whole" "$top/examples" -type f ! -name '*.py' | sort > "$work/texts"
    : > "$work/differ"
    for list in files cases texts; do
        for how in '' --fixes; do
            (cd "$suite" && PYTHONPATH=$work/python "$python" "$lists/cloaders.py" $how < "$work/$list") > "$work/made" 2> "$work/count" ||
                { cat "$work/count"; return 1; }
            [ -n "$how" ] || [ ! -s "$work/made" ] || { cat "$work/made"; return 1; }
            cut -f 1 "$work/made" | sed -E 's#^\./(.*)/in.yaml$#\1#; s#^/.*/##' >> "$work/differ"
        done
    done
    tail -n 1 "$work/texts" | PYTHONPATH=$work/python "$python" "$lists/cloaders.py" --turned > "$work/turned" 2> "$work/count"
    [ -s "$work/turned" ] || { echo "what is turned doesn't differ"; return 1; }
    as_listed "$work/differ" cloaders "$(wc -l < "$work/files") files, $(cat "$work/cases" "$work/texts" | wc -l) cases and texts as by libyaml" \
        'with the fixes'
}

# ---- Rust ----

# Has cargo take crates from Debian's folder, and puts the original into a copy of the crate that takes its place.
prepare_cargo() {
    if [ ! -e "$work/unsafe_libyaml" ]; then
        cp -R bindings/rust "$work/unsafe_libyaml"
        rm -rf "$work/unsafe_libyaml/original"
        ln -s "$(realpath "$crates"/unsafe-libyaml-0.2.11)" "$work/unsafe_libyaml/original"
        sh scripts/parts/rust_manifest.sh original "$top" > "$work/unsafe_libyaml/Cargo.toml"
    fi
    mkdir -p "$CARGO_HOME"
    printf '[source.crates-io]\nreplace-with = "debian"\n[source.debian]\ndirectory = "%s"\n[net]\noffline = true\n' \
        "$(realpath "$crates")" > "$CARGO_HOME/config.toml"
}

# build_bounds NAME FEATURES [SOURCE]: bounds.rs, or another, over the crate with these features, as a program of this name.
build_bounds() {
    prepare_cargo
    mkdir -p "$work/$1_crate/src"
    cp "$lists/${3:-bounds}.rs" "$work/$1_crate/src/main.rs"
    printf '[package]\nname = "%s"\nversion = "0.0.0"\nedition = "2021"\n[dependencies]\n' "$1" > "$work/$1_crate/Cargo.toml"
    printf 'unsafe-libyaml = { path = "%s", features = [%s] }\n[workspace]\n' "$work/unsafe_libyaml" "$2" >> "$work/$1_crate/Cargo.toml"
    (cd "$work/$1_crate" && cargo build -q --release -j 1)
}

# Copies a crate, and one that takes the place of unsafe-libyaml there.
copy_crate() {
    mkdir -p "$2"
    cp -R "$1/." "$2"
    rm -f "$2/Cargo.lock"
    [ "$3" = plain ] || printf '\n[patch.crates-io]\nunsafe-libyaml = { path = "%s" }\n' "$work/unsafe_libyaml" >> "$2/Cargo.toml"
    printf '\n[workspace]\n' >> "$2/Cargo.toml"
}

# Fails where cargo left the crate out that takes the original's place.
uses_patch() {
    if ! grep -q '"0.2.12"' "$1/Cargo.lock" || grep -q 'patch.unused' "$1/Cargo.lock"; then
        echo "the crate is not used"
        return 1
    fi
}

crate() {
    prepare_cargo
    exact_texts || return 1
    (cd "$work/unsafe_libyaml" && POKHVIZI_TEXTS="$work/exact" cargo test -q -j 1 && cargo test -q -j 1 --features fixes) || return 1
    (cd "$work/unsafe_libyaml" && POKHVIZI_DIR='' cargo test -q -j 1) || return 1
    (cd "$work/unsafe_libyaml" && POKHVIZI_DIR=/nowhere cargo build -q -j 1) > "$work/missing" 2>&1 && return 1
    grep -q "POKHVIZI_DIR may name the folder of libpokhvizi.a" "$work/missing" || { cat "$work/missing"; return 1; }
    echo "$(cat bindings/rust/tests/*.rs | grep -c '^#\[test\]') tests"
}

loads_rust() {
    ratios=''
    prepare_cargo
    for how in plain proved; do
        mkdir -p "$work/loads_source/src"
        cp "$lists/loads.rs" "$work/loads_source/src/main.rs"
        printf '[package]\nname = "loads_%s"\nversion = "0.0.0"\nedition = "2021"\n[dependencies]\nunsafe-libyaml = "0.2"\n' $how \
            > "$work/loads_source/Cargo.toml"
        copy_crate "$work/loads_source" "$work/loads_$how" $how
        (cd "$work/loads_$how" && cargo build -q --release -j 1) || return 1
    done
    uses_patch "$work/loads_proved" || return 1
    set -- "$CARGO_TARGET_DIR/release/loads_plain" "$CARGO_TARGET_DIR/release/loads_proved"
    documents 20 > "$work/text.yaml"
    set -- "$@" $("$1" "$work/text.yaml") $("$2" "$work/text.yaml")
    [ "$3" -gt 400000 ] && [ "$3" = "$5" ] && [ "$6" -le $(($4 + 1000)) ] || { echo "$3 nodes in $4 KB, $5 in $6"; return 1; }
    write_texts
    set -- "$@" plain:1.11 small:1.07 anchors:0.3
    [ -e "$dir/pokhvizi_module.o" ] || set -- "$1" "$2" "$3" "$4" "$5" "$6" plain:1.13 small:1.09 anchors:0.3  # of rustc, as above
    for text in "$7" "$8" "$9"; do
        compare_instructions ${text%:*} ${text#*:} "$(instructions "$1" "$work/${text%:*}.yaml")" \
            "$(instructions "$2" "$work/${text%:*}.yaml")" || return 1
    done
    echo "$5 nodes in $6 KB, the original in $4; loads have$ratios of its instructions"
}

pipe_rust() {
    prepare_cargo
    mkdir -p "$work/pipe/src"
    cp "$lists/events.rs" "$work/pipe/src/main.rs"
    printf '[package]\nname = "events"\nversion = "0.0.0"\nedition = "2021"\n[dependencies]\n' > "$work/pipe/Cargo.toml"
    printf 'unsafe-libyaml = { path = "%s" }\n[workspace]\n' "$work/unsafe_libyaml" >> "$work/pipe/Cargo.toml"
    (cd "$work/pipe" && cargo build -q -j 1) || return 1
    pipe "$CARGO_TARGET_DIR/debug/events" -- "$CARGO_TARGET_DIR/debug/events" late
}

yaml_test_suite() {
    prepare_cargo
    set -- "$crates"/unsafe-libyaml-*
    for how in plain proved fixes; do
        runner=$work/runner_$how
        mkdir -p "$runner/src"
        cp -R "$1/src/bin/." "$runner/src"
        printf '[package]\nname = "runner"\nversion = "0.0.0"\nedition = "2021"\n[[bin]]\nname = "runner_%s"\n' $how > "$runner/Cargo.toml"
        printf 'path = "src/run-parser-test-suite.rs"\n[dependencies.unsafe-libyaml]\nversion = "0.2"\n' >> "$runner/Cargo.toml"
        [ $how != fixes ] || echo 'features = ["fixes"]' >> "$runner/Cargo.toml"
        copy_crate "$runner" "$work/built_$how" $how
        (cd "$work/built_$how" && cargo build -q -j 1) || return 1
    done
    uses_patch "$work/built_proved" && uses_patch "$work/built_fixes" || return 1
    (cd "$suite" && find . -name in.yaml | sort) > "$work/cases"
    : > "$work/differ"
    while read -r case; do
        folder=$(dirname "${case#./}")
        for how in plain proved fixes; do
            "$CARGO_TARGET_DIR/debug/runner_$how" "$suite/$case" > "$work/$how" 2>&1
            echo "status $?" >> "$work/$how"
        done
        diff "$work/plain" "$work/proved" || { echo "$folder is read otherwise"; return 1; }
        cmp -s "$work/plain" "$work/fixes" || echo "$folder" >> "$work/differ"
    done < "$work/cases"
    as_listed "$work/differ" yaml_test_suite "$(wc -l < "$work/cases") cases as by the original" 'with the fixes'
}

serde_yaml() {
    prepare_cargo
    set -- "$crates"/serde_yaml-*
    for how in plain proved; do
        copy_crate "$1" "$work/serde_yaml_$how" $how
        (cd "$work/serde_yaml_$how" && cargo test -q -j 1 --no-fail-fast) > "$work/$how" 2>&1
        grep -E '^    [a-z_:]+$|^    .* - .*\(line' "$work/$how" | sort -u > "$work/${how}_failures"
        sed -n 's/^test result: .* \([0-9]*\) passed; \([0-9]*\) failed.*/\1 \2/p' "$work/$how" | awk '{ n += $1 + $2 } END { print n + 0 }' > "$work/${how}_count"
    done
    uses_patch "$work/serde_yaml_proved" || { tail -n 20 "$work/proved"; return 1; }
    [ "$(cat "$work/plain_count")" -gt 0 ] && cmp "$work/plain_count" "$work/proved_count" || { tail -n 20 "$work/proved"; return 1; }
    comm -13 "$work/plain_failures" "$work/proved_failures" > "$work/differ"
    as_listed "$work/differ" serde_yaml "$(cat "$work/proved_count") tests"
}

wanted=$*
for word in $wanted; do
    case " libyaml all_lists python_lists events pipe_c pyyaml_c psych pyyaml_pure loaders pipe_python pyyaml_ext cloaders exact_c fields exact_python bounds unique_keys errors hostile_texts crate loads_rust pipe_rust yaml_test_suite serde_yaml " in
    *" $word "*) ;;
    *) echo "no check has the name $word" >&2; exit 2 ;;
    esac
done
mkdir -p "$work/python"
cp -R bindings/python/src/pokhvizi "$work/python"
check libyaml cc yaml.h proved_libyaml events -- libyaml
check all_lists cc yaml.h -- all_lists
check python_lists PyYAML cc yaml.h -- python_lists
check events cc yaml.h proved_libyaml events libyaml-pp-perl -- events
check pipe_c cc yaml.h proved_libyaml events -- pipe_c
check pyyaml_c PyYAML cc yaml.h proved_libyaml pyyaml -- pyyaml_c
check psych cc yaml.h proved_libyaml psych libyaml-pp-perl -- psych
check pyyaml_pure PyYAML pyyaml -- pyyaml_pure
check loaders PyYAML pyyaml libyaml-pp-perl -- loaders
check pipe_python PyYAML -- pipe_python
check pyyaml_ext PyYAML cc yaml.h pyyaml _yaml.abi3.so -- pyyaml_ext
check cloaders PyYAML cc yaml.h pyyaml libyaml-pp-perl _yaml.abi3.so -- cloaders
check exact_c cc yaml.h proved_libyaml events -- exact_c
check fields cc yaml.h proved_libyaml events -- fields
check exact_python PyYAML _yaml.abi3.so -- exact_python
check bounds PyYAML cc cargo yaml.h proved_libyaml events _yaml.abi3.so unsafe-libyaml -- bounds
check unique_keys PyYAML cc cargo yaml.h proved_libyaml events unsafe-libyaml -- unique_keys
check errors PyYAML cc cargo yaml.h proved_libyaml events _yaml.abi3.so unsafe-libyaml -- errors
check hostile_texts PyYAML cc cargo /usr/bin/time yaml.h proved_libyaml events _yaml.abi3.so unsafe-libyaml crates/yamltokens/out/yamltokens -- hostile_texts
check crate cargo unsafe-libyaml -- crate
check loads_rust cargo valgrind unsafe-libyaml -- loads_rust
check pipe_rust cargo unsafe-libyaml -- pipe_rust
check yaml_test_suite cargo unsafe-libyaml libyaml-pp-perl -- yaml_test_suite
check serde_yaml cargo unsafe-libyaml serde_yaml serde_derive anyhow indoc -- serde_yaml

echo "$passed passed, $failed failed$([ $skipped -eq 0 ] || echo ", $skipped skipped")"
[ "$failed" -eq 0 ]
