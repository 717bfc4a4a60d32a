#!/bin/sh
# Tries a door for C, or the program over both, in every way that no proof covers, and says what it saw:
#
#     sh scripts/doors/door_checks.sh steps|compose|yaml [DIR]
#
# DIR has the libraries that build_c.sh, or build_plain.sh, made there; without it, the first is run.
#
#     steps, compose   the structs of the header against those of the crates; the header in C of 1989 and in C++; the shared
#                      library; events, or documents, beside libyaml's own over samples, test vectors and broken texts; calls that are
#                      wrong, and any bytes in the structs; all this plainly, under the address and undefined behaviour sanitizers
#                      and under valgrind; eight threads at once; the example over the header
#     yaml             examples/yaml.c: the samples and a file with each kind of broken text, under the sanitizers and under
#                      valgrind; each allocation refused in turn; an output that is full or closed
#
# The status is 0 if all is as it should be. Needs what build_c.sh needs, and valgrind, c++, readelf and python3.
#
# Run by check_programs.sh.
set -u
case $# in
1 | 2) case $1 in steps | compose | yaml) ;; *) false ;; esac ;;
*) false ;;
esac || { echo "usage: sh scripts/doors/door_checks.sh steps|compose|yaml [DIR]" >&2; exit 2; }
door=$1 built=${2-}
cd "$(dirname "$0")/../.." || exit 2
work=$(mktemp -d) || exit 2
trap 'rm -rf "$work"' EXIT
export PYTHONDONTWRITEBYTECODE=1
wrong=0
if [ -z "$built" ]; then
    built=$work/plain
    sh scripts/build_c.sh "$built" || exit 2
fi
library=$built/libpokhvizi.a
shared=$built/libpokhvizi.so
cc=${CC:-cc}
strict='-Wall -Wextra -Werror -pedantic -Ibindings/c/include'
sanitized='-O1 -g -fsanitize=address,undefined -fno-sanitize-recover=all'
memory='valgrind -q --leak-check=full --errors-for-leak-kinds=all --error-exitcode=9'

complain() {
    echo "wrong: $*"
    wrong=$((wrong + 1))
}

# Runs a command, whose status must be 0; its last line is shown.
check() {
    what=$1
    shift
    timeout 600 "$@" > "$work/said" 2>&1 || { wrong=$((wrong + 1)); tail -n 20 "$work/said"; what="wrong: $what"; }
    echo "$what: $(tail -n 1 "$work/said")"
}

# ---- A header and its library ----

# check_header TURN: the headers' structs and functions, and where the sed command TURN has turned two fields.
check_header() {
    python3 scripts/doors/layout.py > "$work/layout.c" || exit 2
    check "structs and functions of the headers and of the crates" \
        sh -c "$cc $strict -fsyntax-only '$work/layout.c' && grep -c _Static_assert '$work/layout.c'"
    mkdir -p "$work/turned/pokhvizi"
    cp bindings/c/include/pokhvizi/*.h "$work/turned/pokhvizi"
    sed "$1" "bindings/c/include/pokhvizi/$door.h" > "$work/turned/pokhvizi/$door.h"
    cmp -s "bindings/c/include/pokhvizi/$door.h" "$work/turned/pokhvizi/$door.h" && complain "no field is turned"
    ! $cc -I"$work/turned" -fsyntax-only "$work/layout.c" 2> /dev/null || complain "turned fields are not seen"
}

# The program header.c in C of 1989 and in C++, and over the shared library, which it names without a path. It allocates nothing,
# and the door's object calls nothing but what moves bytes.
check_library() {
    cp "$work/header.c" "$work/header.cpp"
    for build in "$cc -std=c89 $strict" "${CXX:-c++} $strict"; do
        case $build in *++*) source=$work/header.cpp ;; *) source=$work/header.c ;; esac
        check "the header, $build" sh -c "$build '$source' '$library' -o '$work/header' && '$work/header'"
    done
    check "a program over the shared library" \
        sh -c "$cc $strict '$work/header.c' '$shared' -o '$work/header' && LD_LIBRARY_PATH='${shared%/*}' '$work/header'"
    readelf -d "$work/header" | grep -q 'NEEDED.*\[libpokhvizi\.so\.[0-9]*\]' || complain "the shared library has no name of its own"
    $cc -O2 $strict -nodefaultlibs -r -o "$work/header_static" "$work/header.c" "$library" || complain "the header cannot be linked"
    nm "$work/header_static" | grep -E ' (T|t|U) (malloc|realloc|free|calloc)(@|$)' && complain "a program over the header allocates"
    object=$door.o needs='memcmp|memcpy|memmove|memset'
    [ -e "$built/$object" ] || object=pokhvizi.o needs="abort|bcmp|$needs"  # of build_plain.sh
    nm -u "$built/$object" | grep ' U ' | grep -v -E " U ($needs)(@|\$)" && complain "$object needs more than it says"
}

build_driver() {
    for how in plain sanitized; do
        case $how in plain) words=-O2 ;; *) words=$sanitized ;; esac
        $cc $words $strict -o "$work/$how" "scripts/doors/${door}_driver.c" "$library" -lyaml -lpthread || exit 2
    done
}

# check_three WHAT WORD..: the driver with these words, plainly, under the sanitizers and under valgrind
check_three() {
    what_three=$1
    shift
    check "$what_three" "$work/plain" "$@"
    check "the same, sanitizers" "$work/sanitized" "$@"
    check "the same, valgrind" $memory "$work/plain" "$@"
}

check_threads() {
    check "threads" "$work/plain" threads "$@"
    check "the same, helgrind" valgrind -q --tool=helgrind --error-exitcode=9 "$work/plain" threads examples/list.yaml
}

# tells SAMPLE WORDS TEXT: what a sample says on standard error of a text, on one line; its status is 1.
tells() {
    said=$(printf -- "$3" | "$work/$1" 2>&1 > /dev/null; echo "status $?")
    said=$(echo "$said" | tr '\n' ' ')
    [ "$said" = "$2 status 1 " ] || complain "examples/$1.c says: $said"
}

# What a sample says of texts that libyaml's reader or scanner, or the parser, refuses; and a compiler that looks at casts.
check_sample() {
    $cc -O2 $strict -Wstrict-aliasing=1 -Wcast-align=strict -fsyntax-only "examples/$1.c" || complain "examples/$1.c: a cast"
    $cc $sanitized $strict -o "$work/$1_sanitized" "examples/$1.c" "$library" -lyaml || exit 2
    ASAN_OPTIONS=detect_leaks=0 "$work/$1_sanitized" < examples/compose.yaml > /dev/null || complain "examples/$1.c, sanitized"
    tells "$1" "$1: byte 4: invalid leading UTF-8 octet" 'a\nb\n\377\n'
    tells "$1" "$1: byte 3: control characters are not allowed" 'a\nb\001\n'
    tells "$1" "$1: line 2, column 6: mapping values are not allowed in this context" 'a\n--- b: c: d\n'
    tells "$1" "$1: line 2, column 3: did not find expected ',' or ']' $1: line 1, column 3: while parsing a flow sequence" '- [a\n  }'
    said=$("$work/$1" < examples/compose.yaml 2>&1 > /dev/full; echo "status $?")
    [ "$(echo "$said" | tr '\n' ' ')" = "$1: No space left on device status 1 " ] || complain "examples/$1.c, its output full: $said"
}

# ---- Steps ----

check_steps() {
    check_header 's/size_t states_count, marks_count/size_t marks_count, states_count/'
    printf '%s\n' '#include <pokhvizi/steps.h>' '#include <string.h>' 'int main(void) { pokhvizi_steps_t s; uint8_t states[1];' \
        'pokhvizi_mark_t marks[1]; pokhvizi_event_t e; pokhvizi_fault_t f; const char *context; pokhvizi_span_t at;' \
        'memset(&at, 0, sizeof at); memset(&f, 0, sizeof f); pokhvizi_steps_new(&s);' \
        'return pokhvizi_differs(&s, 2) == POKHVIZI_SAME &&' \
        'pokhvizi_step_exact(&s, states, 1, marks, 1, 2, 0, &at, &e, &f) == POKHVIZI_FAULT &&' \
        'pokhvizi_step(&s, states, 1, marks, 1, 2, 0, &at, &e, &f) == POKHVIZI_FAULT && f.problem == 1 &&' \
        'strcmp(pokhvizi_problem(f.problem, &context), "did not find expected <stream-start>") == 0 && context == 0 ? 0 : 1; }' \
        > "$work/header.c"
    check_library
    build_driver
    # The program of docs/CALLING.md.
    $cc -O2 $strict -o "$work/events" examples/events.c "$library" -lyaml || exit 2
    check "examples/events.c" sh -c "'$work/events' < examples/compose.yaml | tee '$work/lines' | wc -l &&
        cut -d ' ' -f 1 '$work/lines' | uniq | tail -n 1 | grep -x -e -STR"
    check_sample events
    check "two tags of a node" sh -c "'$work/events' < scripts/parts/broken/parser_two_tags.yaml 2> /dev/null | grep -x '=VAL 0:3 0:5 <!b> '"
    check_three "beside libyaml's events" "$@"
    mkdir "$work/exact"
    python3 scripts/doors/clients/exact.py write "$work/exact" 400 1 > /dev/null
    check_three "exact steps, beside libyaml's events" exact "$work/exact"/*.yaml
    ! "$work/plain" "$work/exact"/*.yaml > /dev/null || complain "the other steps give libyaml's events, too"
    check_three "bad calls" bad "$@"
    check_threads examples/*.yaml
    for flags in -O2 "$sanitized"; do
        $cc $flags $strict -o "$work/expected" scripts/doors/expected_driver.c "$library" || exit 2
        check "what may come next" "$work/expected" 20000 1
    done
    ! "$work/expected" 10 1 turned > /dev/null || complain "sets that are turned are not seen"
}

# ---- Documents by steps ----

check_compose() {
    check_header 's/int32_t node, key;/int32_t key, node;/'
    printf '%s\n' '#include <pokhvizi/compose.h>' 'int main(void) { pokhvizi_composer_t c; pokhvizi_open_t s[1]; pokhvizi_place_t p;' \
        'pokhvizi_anchor_t a; pokhvizi_size_t z; uint64_t n[1]; unsigned char b = 0; a.place = 0; a.length = 0; a.node = 7;' \
        'pokhvizi_composer_new(&c, 9); pokhvizi_size_new(&z, 1);' \
        'if (pokhvizi_compose(&c, s, 1, 3, 0, &p) != POKHVIZI_BEGINS) return 1;' \
        'if (pokhvizi_compose(&c, s, 1, 6, 0, &p) != POKHVIZI_ROOT) return 1;' \
        'if (pokhvizi_count(&z, n, 0, POKHVIZI_ROOT, 6, &p) != POKHVIZI_FULL_SIZES || z.total != 0) return 1;' \
        'if (pokhvizi_count(&z, n, 1, POKHVIZI_ROOT, 6, &p) != POKHVIZI_COUNTED || z.total != 1) return 1;' \
        'if (pokhvizi_count(&z, n, 1, POKHVIZI_ROOT, 6, &p) != POKHVIZI_TOO_LARGE || z.total != 1) return 1;' \
        'return p.node == 1 && pokhvizi_carrier(&a, 1, &b, 0, &b, 0) == 7 && pokhvizi_carrier(&a, 1, &b, 0, &b, 1) == 0 ? 0 : 1; }' \
        > "$work/header.c"
    check_library
    build_driver
    check "each number" "$work/plain" deeds
    check "any bytes" "$work/plain" bad
    check "the same, sanitizers" "$work/sanitized" bad
    check_three "beside libyaml's documents" "$@"
    check_threads "$@"
    $cc -O2 $strict -o "$work/compose" examples/compose.c "$library" -lyaml || exit 2
    check "examples/compose.c" sh -c "printf 'a: &x [b, *x]\n--- c\n' | '$work/compose' | tr '\n' ' ' |
        grep '1 mapping 2:3 2 scalar a 3 sequence 4 3 4 scalar b ... 1 scalar c ...'"
    check_sample compose
    tells compose 'compose: line 1, column 5: second occurrence compose: line 1, column 1: found duplicate anchor; first occurrence' '&a [&a b]'
    tells compose 'compose: line 1, column 3: found undefined alias' '- *a'
}

# ---- The program ----

# Runs a command, whose status must be the first word; its output goes to out, its messages to err.
expect() {
    status=$1
    shift
    timeout 300 "$@" > "$work/out" 2> "$work/err"
    got=$?
    runs=$((runs + 1))
    [ "$got" = "$status" ] || complain "$* has status $got, not $status"
}

# Wants status and one message line, and the message on standard error; what was expected, or the name that it is about, may be said there, too.
expect_message() {
    expect "$@"
    [ "$(grep -c -v -E '^yaml: (expected|name): ' "$work/err")" -eq 1 ] || complain "$*: $(wc -l < "$work/err") lines on standard error"
}

# Samples and broken texts, by a program that is named and the words before it.
check_texts() {
    what=$1
    shift
    runs=0
    for name in list compose; do
        for mode in tokens events nodes; do
            expect 0 "$@" $mode examples/$name.yaml
            cmp -s "$work/out" examples/$name.$mode || complain "$what: $mode of $name"
        done
    done
    expect_message 1 "$@" events examples/fault.yaml
    cmp -s "$work/out" examples/fault.events || complain "$what: events of fault"
    for text in scripts/parts/broken/*.yaml; do
        expect_message 1 "$@" nodes "$text"
        grep -A 1 '^FAULT' "$work/out" | cmp -s - "${text%.yaml}.fault" || complain "$what: ${text##*/}"
    done
    echo "$what: $runs runs, over samples and $(ls scripts/parts/broken/*.yaml | wc -l) broken texts"
}

# Outputs that fail, words that are wrong, files that aren't there.
check_failures() {
    runs=0
    $cc -O2 $strict -Wstrict-aliasing=1 -Wcast-align=strict -fsyntax-only examples/yaml.c || complain "examples/yaml.c: a cast"
    for mode in tokens events nodes; do
        expect_message 3 sh -c "'$work/plain_yaml' $mode examples/list.yaml > /dev/full"
        expect_message 3 sh -c "'$work/plain_yaml' $mode examples/list.yaml >&-"
        expect_message 3 sh -c "'$work/plain_yaml' $mode - <&-"
        expect_message 3 "$work/plain_yaml" $mode "$work/nowhere"
        expect_message 3 "$work/plain_yaml" $mode "$work"
        expect 0 sh -c "'$work/plain_yaml' $mode - < examples/list.yaml"
        cmp -s "$work/out" examples/list.$mode || complain "$mode of standard input"
    done
    expect 2 "$work/plain_yaml" events
    expect 2 "$work/plain_yaml" lines examples/list.yaml
    expect 2 "$work/plain_yaml"
    echo "outputs that fail, files that aren't there, wrong words: $runs runs"
}

# Runs the program with its Nth allocation refused; N is the first word.
run_refused() {
    timeout 60 env REFUSE="$1" LD_PRELOAD="$work/fail_allocation.so" "$work/plain_yaml" $mode "$file" > "$work/out" 2> "$work/err"
    got=$?
}

# Each allocation refused in turn.
check_refused() {
    mode=$1
    file=$2
    run_refused 0
    whole=$got
    cp "$work/out" "$work/whole"
    allocations=$(sed -n 's/^\([1-9][0-9]*\) allocations$/\1/p' "$work/err")
    [ -n "$allocations" ] || complain "$mode of $file: how many allocations it makes is not seen"
    n=0 stopped=0 same=0
    while n=$((n + 1)) && [ $n -le "${allocations:-0}" ]; do
        run_refused $n
        if [ $got = $whole ] && cmp -s "$work/out" "$work/whole" && ! grep -q '^no allocation failed$' "$work/err"; then
            same=$((same + 1))
        elif [ $got = 3 ] && [ ! -s "$work/out" ] && [ "$(wc -l < "$work/err")" -eq 1 ]; then
            stopped=$((stopped + 1))
        else
            complain "$mode of $file, allocation $n refused: status $got, $(wc -c < "$work/out") bytes"
        fi
    done
    run_refused $n
    [ $got = $whole ] && cmp -s "$work/out" "$work/whole" && grep -q '^no allocation failed$' "$work/err" ||
        complain "$mode of $file makes more than $allocations allocations now"
    echo "$mode of ${file##*/}: $((n - 1)) allocations refused in turn: $stopped ended by status 3 with no output, $same had the whole output"
}

# What is said of an error beside its words. Each row is a mode, a text, and the last line on standard error.
check_said() {
    while IFS='|' read -r mode text wanted; do
        said=$(printf '%b' "$text" | "$work/plain_yaml" "$mode" - 2>&1 > /dev/null | tail -n 1)
        [ "$said" = "yaml: $wanted" ] || complain "$mode of $text: $said, and not $wanted"
    done << 'END'
events|[a }|expected: ',' or ']'
nodes|- *ab\n|name: ab
nodes|- &x 1\n- !t &x 2\n|name: x
events|!e!x &a b|name: !e!
events|&a !e!x b|name: !e!
nodes|!e!x|name: !e!
events|%TAG !e! a\n%TAG !f! b\n%TAG !e! c\n---|name: !e!
events|%YAML 2.0\n---|-: line 1, column 1: found incompatible YAML document (parser)
nodes|[&a b, *a }|expected: ',' or ']'
END
}

check_yaml() {
    build="$cc -O1 -g -Wall -Wextra -Werror -Ibindings/c/include examples/yaml.c $library -lyaml"
    $build -o "$work/plain_yaml" || exit 2
    $build -fsanitize=address,undefined -fno-sanitize-recover=all -o "$work/sanitized_yaml" || exit 2
    $cc -O2 -Wall -Wextra -fPIC -shared -o "$work/fail_allocation.so" scripts/doors/fail_allocation.c || exit 2
    check_said
    check_texts plain "$work/plain_yaml"
    check_texts sanitizers "$work/sanitized_yaml"
    check_texts valgrind $memory "$work/plain_yaml"
    check_failures
    for mode in events nodes; do
        check_refused $mode examples/compose.yaml
        check_refused $mode scripts/parts/broken/scanner_quote_never_closed.yaml
        check_refused $mode scripts/parts/whole/verbatim_tags.yaml
        check_refused $mode scripts/parts/broken/parser_handle_that_is_not_defined.yaml
    done
    check_refused tokens examples/compose.yaml
    check_refused tokens scripts/parts/whole/verbatim_tags.yaml
}

check_$door examples/*.yaml scripts/parts/broken/*.yaml scripts/parts/whole/*.yaml
echo "$wrong wrong"
[ $wrong -eq 0 ]
