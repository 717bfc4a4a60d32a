#!/bin/sh
# Copies crates of this repository, and those below them, into another project; run again, it adds crates and updates the copies:
#
#     sh scripts/vendor.sh [--proofs] DEST [CRATE..]
#
# DEST is the top of that project. CRATE is, for example, token_lines or yaml_path; without one it is unsafe_libyaml, or what
# was copied there earlier. Earlier copies are updated too, so all are of one state. Of each crate README.md, src, specs, proofs
# and the licence are copied to DEST/crates, but no kept work and no mutants; what a check kept there stays. Its line goes
# into DEST/crates.txt, whose other lines stay. DEST/vendored.txt has the version and commit of the crates, and a checksum of each.
#
# With --proofs it also copies the proved libraries that `rt lib` or `rt run` of a crate above left in crates/CRATE/out/rlib: the
# first run there then proves only the project's own crates. Each has a checksum of the sources and the kit that it was proved
# with; rt proves it again if one of these differs.
#
# Prints what it did with each crate: added, updated, or as it was. The exit status is 2 for wrong words. It is 1, and nothing is
# changed, if DEST is this repository or a folder of it; if a name is no crate of this repository; if a crate there was not copied
# by this script or was changed since; or, with --proofs, if a crate has no proved library, or one that is older than its sources.
#
# Run by hand.
set -eu
fail() {
    echo "vendor.sh: $*" >&2
    exit 1
}
usage='usage: sh scripts/vendor.sh [--proofs] DEST [CRATE..]'
with_proofs=
[ "${1-}" != --proofs ] || { with_proofs=yes && shift; }
[ $# -ge 1 ] || { echo "$usage" >&2; exit 2; }
for word; do
    case $word in '' | -*) echo "$usage" >&2; exit 2 ;; esac
done
[ -d "$1" ] || { echo "vendor.sh: no folder $1" >&2; exit 2; }
dest=$(cd "$1" && pwd -P)
shift
cd -P "$(dirname "$0")/.."
case $dest/ in "$PWD"/*) fail "$dest is this repository, or in it" ;; esac
parts='LICENSE README.md src specs proofs'
record=$dest/vendored.txt
work=$(mktemp -d)
trap 'rm -rf "$work"' EXIT

# The checksum of a crate's copied files.
sum() {
    (cd "$1" && find $parts -type f -print0 2> /dev/null | LC_ALL=C sort -z | xargs -0 -r sha256sum | sha256sum | cut -d ' ' -f 1)
}

# The crates copied earlier, those of them that this repository still has, and what is asked for.
earlier=
[ ! -f "$record" ] || earlier=$(sed -n 's/^\([a-z0-9_]*\) [0-9a-f]*$/\1/p' "$record")
[ $# -gt 0 ] || [ -n "$earlier" ] || set -- unsafe_libyaml
gone=
for crate in $earlier; do
    if [ -d "crates/$crate" ]; then set -- "$@" "$crate"; else gone="$gone $crate"; fi
done

# The lines of the named crates and of all below them, in the order of crates.txt.
awk -v named="$*" '
    { sub(/#.*/, ""); if (split($0, half, ":") < 2) next }
    { split(half[1], words, " "); name = words[1]; order[++count] = name; line[name] = $0; below[name] = half[2] }
    END {
        left = split(named, todo, " ")
        for (i = 1; i <= left; i++) if (!(todo[i] in line)) { print "vendor.sh: no crate " todo[i] > "/dev/stderr"; exit 1 }
        while (left > 0) {
            name = todo[left--]
            if (!(name in line) || name in taken) continue
            taken[name] = 1
            n = split(below[name], deps, " ")
            for (i = 1; i <= n; i++) todo[++left] = deps[i]
        }
        for (i = 1; i <= count; i++) if (order[i] in taken) print line[order[i]]
    }' crates.txt > "$work/lines"
crates=$(sed 's/[: ].*//' "$work/lines")

for crate in $crates; do
    at=$dest/crates/$crate
    known=$(sed -n "s/^$crate //p" "$record" 2> /dev/null || true)
    [ ! -e "$at" ] || [ -n "$known" ] || fail "$at is there, and not copied by this script"
    [ ! -e "$at" ] || [ "$(sum "$at")" = "$known" ] || fail "$at was changed since it was copied"
    if [ -n "$with_proofs" ]; then
        built=crates/$crate/out/rlib/stamp
        [ -e "$built" ] || fail "$crate has no proved library: (cd crates/${crates##*
} && rt lib) makes those of all"
        [ -z "$(cd "crates/$crate" && find src specs proofs -newer out/rlib/stamp -type f 2> /dev/null)" ] ||
            fail "the proved library of $crate is older than its sources: (cd crates/${crates##*
} && rt lib) makes it anew"
    fi
    mkdir -p "$work/crates/$crate"
    cp LICENSE "$work/crates/$crate/"
    for part in $parts; do
        [ ! -e "crates/$crate/$part" ] || cp -R "crates/$crate/$part" "$work/crates/$crate/"
    done
done

commit=$(git rev-parse --short HEAD 2> /dev/null || echo unknown)
[ -z "$(git status --porcelain -- crates 2> /dev/null)" ] || commit="$commit with changes"
echo "# Copied by scripts/vendor.sh of Pokhvizi $(cat VERSION), commit $commit: crates and their checksums." > "$work/record"
for crate in $crates; do
    at=$dest/crates/$crate
    new=$(sum "$work/crates/$crate")
    echo "$crate $new" >> "$work/record"
    if [ ! -e "$at" ]; then
        did=added
    elif [ "$new" = "$(sum "$at")" ]; then
        did='as it was'
    else
        did=updated
    fi
    echo "$crate: $did"
    if [ -n "$with_proofs" ]; then
        mkdir -p "$at/out"
        rm -rf "$at/out/rlib"
        cp -R "crates/$crate/out/rlib" "$at/out/"
    fi
    [ "$did" != 'as it was' ] || continue
    mkdir -p "$at"
    for part in $parts; do
        rm -rf "${at:?}/$part"
        [ ! -e "$work/crates/$crate/$part" ] || cp -R "$work/crates/$crate/$part" "$at/"
    done
done
for crate in $gone; do
    sed -n "/^$crate /p" "$record" >> "$work/record"
    echo "$crate: left, though this repository has it no more"
done

# The lines of other crates stay where they are; those of the copied crates come first.
touch "$dest/crates.txt"
awk 'NR == FNR { split($0, words, /[: ]/); taken[words[1]] = 1; print; next } { split($0, words, /[: ]/) } !(words[1] in taken)' \
    "$work/lines" "$dest/crates.txt" > "$work/crates.txt"
cmp -s "$work/crates.txt" "$dest/crates.txt" || { cp "$work/crates.txt" "$dest/crates.txt"; echo "crates.txt: updated"; }
cp "$work/record" "$record"
