#!/bin/sh
# inlined.sh PROGRAM..: what the figures of docs/PERFORMANCE.md rest on. Names each function marked #[inline(always)] that
# still stands in a program's symbols, as `enter` or `append_number`, and each one marked #[inline(never)], as `bare_scalar`,
# that does not, in a program that has others of its crate. Fails if there is one, if a mark's function isn't found
# in the code, and if a program has no symbols of the crates. `bench_lists` has two loops `for event in parser.by_ref()`:
# the kit's `next` by reference, which has no mark, is inlined into them, or is named.
#
#     sh scripts/gate/inlined.sh crates/yamltokens/out/yamltokens crates/bench_lists/out/bench_lists
#
# Run by check_programs.sh.
set -eu
case ${1-} in '' | -*) echo "usage: inlined.sh PROGRAM.." >&2; exit 2 ;; esac
top=$(CDPATH='' cd -- "$(dirname -- "$0")/../.." && pwd)
work=$(mktemp -d)
trap 'rm -rf "$work"' EXIT

# CRATE PARENT NAME MARK FILE of each marked function; the parent is a method's type, or a free function's file.
find "$top"/crates/*/src -name '*.rt' | sort | while read -r file; do
    crate=${file#"$top/crates/"}
    awk -v crate="${crate%%/*}" -v file="$(basename "$file" .rt)" '
        /^impl/ { type = $0; while (gsub(/<[^<>]*>/, "", type)) { }; sub(/^impl */, "", type); sub(/^.* for /, "", type); sub(/[^A-Za-z0-9_].*/, "", type) }
        /^}/ { type = "" }
        /^ *#\[inline\((always|never)\)\]/ { marked = NR; mark = /always/ ? "always" : "never" }
        marked && /^ *(pub(\([a-z]+\))? )?fn / {
            name = $0; sub(/^.*fn /, "", name); sub(/[^A-Za-z0-9_].*/, "", name)
            print crate, (type ? type : file == "lib" || file == "main" ? crate : file), name, mark, file
            marked = 0
        }
        END { if (marked) { print "a mark without a function at line " marked " of " file > "/dev/stderr"; exit 1 } }
    ' "$file" || echo failed > "$work/failed"
done > "$work/marked"
[ ! -e "$work/failed" ]

# The same of each function of a program. A method of a trait stands under its type and the name of the trait.
status=0
for program; do
    nm "$program" | sed -n 's/^[0-9a-f]* [tTwW] //p' | sed 's/::<.*//' | awk -F '::' 'NF > 1 { print $1, $(NF - 1), $NF }' | sort -u > "$work/symbols"
    awk -v program="$program" '
        NR == FNR { crates[$1]; symbols[$1, $3] = symbols[$1, $3] " " tolower($2); n++; next }
        # the parser that is handed its tokens, in a program without it
        $5 == "push" && !(($1, "push_from") in symbols) { next }
        { stands = index(symbols[$1, $3], " " tolower($2)) }
        $1 in crates { known++ }
        $4 == "always" && stands { print program ": marked to be inlined, and still a function of its own: " $1, $2, $3; wrong = 1 }
        $4 == "never" && !stands && $1 in crates { print program ": marked to stay apart, and no function of its own: " $1, $2, $3; wrong = 1 }
        END {
            if (!n || !known) { print program ": no symbols of a crate with a marked function"; exit 1 }
            exit wrong
        }
    ' "$work/symbols" "$work/marked" >&2 || status=1
    if grep -q '^bench_lists ' "$work/symbols" && grep -q '^core RefMutIterator next$' "$work/symbols"; then
        echo "$program: a function of its own: next of an iterator by reference" >&2
        status=1
    fi
done
exit $status
