#!/bin/sh
# Makes what a user without the kit installs:
#
#     sh scripts/release.sh OUTDIR [BUILT]
#
#     pokhvizi-VERSION-MACHINE-linux.tar.gz      for C and C++: headers, static and shared library, pkg-config, libyaml
#                                                library with its starter, samples, pages, PROOF
#     pokhvizi-VERSION-cp38-abi3-MACHINE.whl     for Python; py3-none if it has no extension
#     pokhvizi-unsafe-libyaml-VERSION.tar.gz     for Rust, to be named by [patch.crates-io]; it has the library for both machines,
#                                                for all others the crate `pokhvizi`, and the original crate, which ORIGINAL names
#     pokhvizi-VERSION-llvm.tar.gz               the LLVM modules, to be compiled
#     SHA256SUMS
#
# MACHINE is x86_64, and aarch64 if its compiler is there; MACHINES names others of these. WITHOUT_MODULES leaves the LLVM archive
# out. BUILT has what build_c.sh made, for aarch64 in BUILT/aarch64; without it both are made here, with all proofs. ORIGINAL is the
# folder of unsafe-libyaml 0.2.11, as Debian's librust-unsafe-libyaml-dev has it in /usr/share/cargo/registry; without it there is no
# archive for Rust. The script says what it leaves out. Times are those of the last commit, so two runs over one commit write the
# same bytes.
#
# Needs the kit, git, gcc, binutils, python3 with its headers, libyaml-dev (Debian: git gcc python3-dev libyaml-dev), and for aarch64
# gcc-aarch64-linux-gnu with libyaml's library and Python's headers for that machine (libyaml-dev:arm64 and libpython3-dev:arm64),
# without which that archive has no libyaml, and the wheel no extension; the script says so.
#
# Run by hand for a release, and by release_checks.sh.
set -eu
case ${1-} in '' | -*) echo "usage: sh scripts/release.sh OUTDIR [BUILT]" >&2; exit 2 ;; esac
[ $# -le 2 ] || { echo "usage: sh scripts/release.sh OUTDIR [BUILT]" >&2; exit 2; }
mkdir -p "$1"
out=$(cd "$1" && pwd)
built=${2:+$(cd "$2" && pwd)}
cd "$(dirname "$0")/.."
top=$PWD
work=$(mktemp -d)
trap 'rm -rf "$work"' EXIT
version=$(cat VERSION)
machines=${MACHINES-}
if [ -z "$machines" ]; then
    machines='x86_64 aarch64'
    command -v aarch64-linux-gnu-gcc > /dev/null || { machines=x86_64; echo "no archives for aarch64: aarch64-linux-gnu-gcc isn't there"; }
fi
original=${ORIGINAL:-$(ls -d /usr/share/cargo/registry/unsafe-libyaml-0.2.11 2> /dev/null || true)}
SOURCE_DATE_EPOCH=$(git log -1 --format=%ct)
export SOURCE_DATE_EPOCH LC_ALL=C TZ=UTC
umask 022
kit=$(dirname "$(rt doc)")
rm -f "$out"/*.tar.gz "$out"/*.whl "$out/SHA256SUMS"

if [ -z "$built" ]; then
    built=$work/built
    sh scripts/build_c.sh "$built"
    case " $machines " in *" aarch64 "*) sh scripts/build_c.sh "$built/aarch64" aarch64 ;; esac
fi

# Where the libraries of a machine are, and its tools.
folder_of() { [ "$1" = x86_64 ] && echo "$built" || echo "$built/$1"; }
tools_of() { [ "$1" = x86_64 ] || echo "$1-linux-gnu-"; }

# An archive of a tree that depends on nothing but its files.
pack() {
    (cd "$1/.." && tar --sort=name --mtime="@$SOURCE_DATE_EPOCH" --owner=0 --group=0 --numeric-owner --format=ustar -cf - "${1##*/}") |
        gzip -9n > "$2"
}

# ---- Licences of what is built in ----

notices() {
    echo "libyaml's code, in lib/pokhvizi of the archive for C and in the wheel's extension, is under LICENSE.libyaml, and that of the crate"
    echo "unsafe-libyaml, in the archive for Rust, under original/LICENSE-MIT. The library has no code of these crates, which the prover's kit"
    echo "ported from Rust; a program that the kit builds from the sources may have it."
    for ported in simdutf8 percent_encoding memchr itoa; do
        printf '\n---- %s ----\n\n' "$ported"
        if [ -e "$kit/rattle/$ported/LICENSE-MIT" ]; then licence=LICENSE-MIT; else licence=LICENSE; fi
        cat "$kit/rattle/$ported/$licence"
    done
}
notices > "$work/NOTICES"

# ---- What was proved ----

proof_note() {
    commit=$(git rev-parse HEAD)
    [ -z "$(git status --porcelain -- crates crates.txt bindings)" ] || commit="$commit and changes"
    echo "Pokhvizi $version, commit $commit"
    rt version
    echo
    echo "SHA-256 of the objects that the prover's compiler wrote, ($1):"
    (cd "$(folder_of "$1")" && sha256sum pokhvizi_module.o)
    echo
    echo "The prover's last lines for each of them, steps and compose:"
    grep -E '^(fn|axioms|logic[ =])' "$(folder_of "$1")/rt_lib.log" | sed "s#/[^ ]*/rattle/logic/#rattle/logic/#"
}

# ---- C ----

c_archive() {
    machine=$1
    folder=$(folder_of "$machine")
    tree=$work/pokhvizi-$version-$machine-linux
    tools=$(tools_of "$machine")
    rm -rf "$folder/libyaml"
    if ! TOOLS=$tools CC="${tools}gcc" sh bindings/c/build_libyaml.sh "$folder" > "$work/said" 2>&1; then
        [ "$machine" != x86_64 ] || { cat "$work/said" >&2; exit 1; }
        echo "no libyaml for $machine: $(tail -n 1 "$work/said")"
    fi
    sh scripts/parts/c_tree.sh "$folder" "$tree"
    glibc=$(for file in "$tree"/lib/libpokhvizi.so "$tree"/lib/pokhvizi/*.so; do
        [ ! -e "$file" ] || "$(tools_of "$machine")objdump" -T "$file"
    done | grep -o 'GLIBC_[0-9.]*' | sed s/GLIBC_// | sort -Vu | tail -n 1)
    sed "s/the GNU C library/& ($glibc or later)/" bindings/c/README.md > "$tree/README.md"
    grep -q "($glibc or later)" "$tree/README.md"
    cp "$tree/README.md" "$work/NOTICES" "$tree/share/doc/pokhvizi"
    proof_note "$machine" > "$tree/share/doc/pokhvizi/PROOF"
    pack "$tree" "$out/pokhvizi-$version-$machine-linux.tar.gz"
}

# ---- Python ----

wheel() {
    machine=$1
    tree=$work/pokhvizi-$version-$machine-linux
    tools=$(tools_of "$machine")
    extension=$(folder_of "$machine")/_yaml.abi3.so
    # Debian's headers of Python are for each machine whose pyconfig.h is installed; another Python's are for this one alone.
    include=${PYTHON_INCLUDE-}
    [ "$machine" = x86_64 ] || include=${include:-$(/usr/bin/python3 -c 'import sysconfig; print(sysconfig.get_path("include"))')}
    if ! PYTHON_INCLUDE=$include NM="${tools}nm" CC="${tools}gcc" STRIP="${tools}strip" \
        sh bindings/python/build_extension.sh "${extension%/*}" > "$work/said" 2>&1; then
        [ "$machine" != x86_64 ] || { cat "$work/said" >&2; exit 1; }
        echo "the wheel for $machine has no extension: $(tail -n 1 "$work/said")"
        extension=-
    fi
    needs=$(for file in "$tree/lib/libpokhvizi.so" "$extension"; do
        [ ! -e "$file" ] || "${tools}objdump" -T "$file"
    done | grep -o 'GLIBC_[0-9.]*' | sed s/GLIBC_// | sort -Vu | tail -n 1)
    case $needs in
    2.[0-9] | 2.[0-9].* | 2.1[0-7]) tag=manylinux_2_17_$machine.manylinux2014_$machine ;;
    *) tag=manylinux_$(echo "$needs" | tr . _)_$machine ;;
    esac
    python3 bindings/python/wheel.py "$tree/lib/libpokhvizi.so.$version" "$extension" "$tree/share/doc/pokhvizi" "$version" "$tag" "$out"
}

# ---- Rust ----

crate() {
    tree=$work/pokhvizi-unsafe-libyaml-$version
    mkdir -p "$tree"
    git ls-files bindings/rust | while read -r file; do
        mkdir -p "$tree/$(dirname "${file#bindings/rust/}")"
        cp "$file" "$tree/${file#bindings/rust/}"
    done
    sh scripts/parts/rust_manifest.sh original plain > "$tree/Cargo.toml"
    # For other machines the crate `pokhvizi`, without the lists of its test.
    sed -n 's#^    "/\(.*\)",$#\1#p' Cargo.toml | grep -v vectors_ | xargs git ls-files Cargo.toml -- |
        grep -v '^bindings/plain/tests/data/' | while read -r file; do
        mkdir -p "$tree/plain/$(dirname "$file")"
        cp "$file" "$tree/plain/$file"
    done
    for machine in $machines; do
        mkdir -p "$tree/lib/$machine-unknown-linux"
        cp "$(folder_of "$machine")/libpokhvizi.a" "$tree/lib/$machine-unknown-linux"
        cp "$work/pokhvizi-$version-$machine-linux/share/doc/pokhvizi/PROOF" "$tree/lib/$machine-unknown-linux"
    done
    cp LICENSE "$work/NOTICES" "$tree"
    # The original, without which cargo can't have both: its licence goes with it.
    mkdir "$tree/original"
    cp -RL "$original/src" "$original/Cargo.toml" "$original/LICENSE-MIT" "$tree/original"
    rm -rf "$tree/original/src/bin"
    printf '\n# cargo hides the warnings of a crate of the registry, and not those of a path.\n[lints.rust]\nwarnings = "allow"\n' \
        >> "$tree/original/Cargo.toml"
    pack "$tree" "$out/pokhvizi-unsafe-libyaml-$version.tar.gz"
}

# ---- LLVM ----

modules() {
    tree=$work/pokhvizi-$version-llvm
    mkdir -p "$tree/include"
    sh scripts/parts/llvm_source.sh "$tree" > "$work/said" 2>&1 || { cat "$work/said" >&2; exit 1; }
    cmp "$tree/pokhvizi_module.o" "$built/pokhvizi_module.o"
    rm "$tree/pokhvizi_module.o"
    cp -R bindings/c/include/pokhvizi "$tree/include"
    cp scripts/parts/llvm/Makefile scripts/parts/llvm/README.md scripts/parts/llvm/lower.py LICENSE "$work/NOTICES" "$built/pokhvizi.map" "$tree"
    cp "$work/pokhvizi-$version-x86_64-linux/share/doc/pokhvizi/PROOF" "$tree"
    pack "$tree" "$out/pokhvizi-$version-llvm.tar.gz"
}

for machine in $machines; do
    c_archive "$machine"
    wheel "$machine"
done
if [ -n "$original" ]; then crate; else echo "no archive for Rust: ORIGINAL doesn't name the folder of unsafe-libyaml 0.2.11"; fi
case ${WITHOUT_MODULES-}$machines in x86_64*) modules ;; esac
(cd "$out" && sha256sum -- *.tar.gz *.whl > SHA256SUMS)
echo "made in $out:"
sed 's/^[0-9a-f]*  //' "$out/SHA256SUMS"
