#!/bin/sh
# Tries scripts/vendor.sh on a project of its own: crates added, added to, updated, and what it refuses. The exit status is 1
# if one does something else than vendor.sh says.
#
#     sh scripts/gate/vendor_checks.sh
#
# Run by check_programs.sh.
set -u
[ $# = 0 ] || { echo "usage: sh scripts/gate/vendor_checks.sh" >&2; exit 2; }
cd "$(dirname "$0")/../.." || exit 2
work=$(mktemp -d) || exit 2
trap 'rm -rf "$work"' EXIT
project=$work/project
types=$project/crates/libyaml_types
wrong=0

complain() {
    echo "wrong: $*"
    cat "$work/said"
    wrong=$((wrong + 1))
}

# Runs vendor.sh with these words: its exit status, and how many crates it says that it added and updated.
expect() {
    status=$1 added=$2 updated=$3
    shift 3
    sh scripts/vendor.sh "$@" > "$work/said" 2>&1
    got="$? $(grep -c ': added$' "$work/said") $(grep -c '^[a-z_]*: updated$' "$work/said")"
    [ "$got" = "$status $added $updated" ] || complain "vendor.sh $*: status, added and updated are $got, not $status $added $updated"
}

# A refusal names what it is about, and changes nothing.
refuse() {
    word=$1
    shift
    cp -R "$project" "$work/before"
    expect 1 0 0 "$@"
    grep -q "$word" "$work/said" || complain "it does not name $word"
    diff -r "$work/before" "$project" > /dev/null || complain "what is refused changes the project"
    rm -r "$work/before"
}

# Whether the project has the crates as they are here, and each line of crates.txt once.
is_whole() {
    for crate in "$project"/crates/*; do
        name=${crate##*/}
        [ "$name" = mine ] && continue
        diff -r -x out -x must-fail -x controls -x LICENSE "crates/$name" "$crate" > /dev/null || complain "$name is not as it is here"
        [ "$(grep -c "^${name}[: ]" "$project/crates.txt")" = 1 ] || complain "$name stands in crates.txt another number of times"
        grep -qxF "$(grep "^${name}[: ]" crates.txt)" "$project/crates.txt" || complain "$name has another line in crates.txt"
    done
    grep -qx 'mine: unsafe_libyaml' "$project/crates.txt" || complain "the project's own line is lost"
}

mkdir -p "$project/crates/mine"
echo 'mine: unsafe_libyaml' > "$project/crates.txt"
: > "$work/said"
expect 2 0 0
expect 2 0 0 "$work/nowhere"
expect 2 0 0 ''
expect 2 0 0 --help
expect 2 0 0 "$project" ''
[ ! -e "$project/vendored.txt" ] || complain "wrong words change the project"
expect 1 0 0 .
expect 1 0 0 crates
ln -s "$PWD/crates" "$work/link" && expect 1 0 0 "$work/link"
[ ! -e crates/vendored.txt ] || complain "the repository's own crates are a project"
refuse no_such_crate "$project" no_such_crate
# It and all crates that stand below it.
below=$(sed 's/#.*//; s/ staticlib//; s/:/ /' crates.txt | awk '
    { name = $1; $1 = ""; uses[name] = $0 }
    END {
        todo[n = 1] = "unsafe_libyaml"
        for (i = 1; i <= n; i++) {
            m = split(uses[todo[i]], more)
            for (j = 1; j <= m; j++) if ((more[j] in uses) && !seen[more[j]]++) todo[++n] = more[j]
        }
        print n
    }')
expect 0 "$below" 0 "$project"
is_whole
expect 0 1 0 "$project" yaml_path
is_whole
grep -l '](\.\./' crates/*/README.md > "$work/said" && complain "a page that may be copied links to what isn't copied"
expect 0 0 0 "$project"

# The first line of vendored.txt names the version, and the commit.
named="^# Copied by scripts/vendor.sh of Pokhvizi $(sed 's/\./\\./g' VERSION), commit \([0-9a-f]\{7,\}\|unknown\)\( with changes\)\?:"
head -n 1 "$project/vendored.txt" > "$work/said"
grep -q "$named" "$work/said" || complain "vendored.txt names another version, or no commit"

# As if an earlier state of this repository had been copied, and checked there.
mkdir "$types/out" && touch "$types/out/kept" "$types/src/gone.rt"
echo '// earlier' >> "$types/src/lib.rt"
sed -i 's/^libyaml_types:.*/libyaml_types: thiserror/' "$project/crates.txt"
refuse libyaml_types "$project"
now=$(cd "$types" && find LICENSE README.md src specs proofs -type f -print0 | LC_ALL=C sort -z | xargs -0 sha256sum | sha256sum | cut -d ' ' -f 1)
sed -i "s/^libyaml_types .*/libyaml_types $now/" "$project/vendored.txt"
expect 0 0 1 "$project"
is_whole
[ -e "$types/out/kept" ] || complain "kept work is lost"

mkdir "$project/crates/token_lines" && refuse token_lines "$project" token_lines

# With proofs: the library that a check of the copy takes as it is, by its checksum; none where it isn't there, or older.
copy=$work/copy
mkdir -p "$copy/crates/libyaml_types/out/rlib" "$copy/scripts" "$work/proofs"
cp -R LICENSE VERSION crates.txt "$copy/"
cp scripts/vendor.sh "$copy/scripts/"
for part in README.md src specs proofs; do
    cp -R "crates/libyaml_types/$part" "$copy/crates/libyaml_types/"
done
with_proofs() {
    sh "$copy/scripts/vendor.sh" --proofs "$work/proofs" libyaml_types > "$work/said" 2>&1
}
! with_proofs && grep -q 'libyaml_types has no proved library' "$work/said" || complain "a proved library that isn't there is copied"
echo sum > "$copy/crates/libyaml_types/out/rlib/stamp"
touch -d tomorrow "$copy/crates/libyaml_types/src/lib.rt"
! with_proofs && grep -q 'libyaml_types is older than its sources' "$work/said" || complain "an old proved library is copied"
[ -z "$(ls "$work/proofs")" ] || complain "what is refused changes the project"
touch -d tomorrow "$copy/crates/libyaml_types/out/rlib/stamp"
with_proofs && grep -qx sum "$work/proofs/crates/libyaml_types/out/rlib/stamp" || complain "the proved library isn't copied"
echo "$wrong wrong"
[ "$wrong" = 0 ]
