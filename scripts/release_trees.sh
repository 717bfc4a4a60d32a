#!/bin/sh
# Installs and uses the archives of a release in Debian trees that have neither the kit nor this repository:
#
#     sh scripts/release_trees.sh OUT TREES
#
# OUT is what release.sh made. TREES has the folders `bookworm`, for C and C++, Ruby, Python, aarch64 and the LLVM modules, and
# `trixie`, for Rust with the tests of serde_yaml over the patched crate; one that isn't there is made by debootstrap. Packages
# are installed in them by apt-get. Needs root, debootstrap, and Debian's packages over the network; ten minutes. A tree whose archive
# OUT lacks is skipped, and named. The last line counts; the exit status is 1 if something is wrong.
#
# Run by hand, for a release.
set -u
[ $# -eq 2 ] && [ -f "$1/SHA256SUMS" ] || { echo "usage: sh scripts/release_trees.sh OUT TREES, where release.sh made OUT" >&2; exit 2; }
[ "$(id -u)" = 0 ] || { echo "release_trees.sh: needs root" >&2; exit 2; }
out=$(cd "$1" && pwd)
mkdir -p "$2"
trees=$(cd "$2" && pwd)
cd "$(dirname "$0")/.." || exit 2
version=$(cat VERSION)
. scripts/parts/trees.sh

# release_tree NAME PACKAGE..: a tree with the archives.
release_tree() {
    tree "$@"
    cp "$out"/* "$root/srv/use"
}

# Unpacks Debian's Python for aarch64 into /srv/arm of the tree, where nothing but qemu finds it.
unpack_arm_python() {
    chroot "$root" sh -eu -c 'dpkg --add-architecture arm64 && apt-get -q update
        rm -rf /srv/arm && mkdir -p /srv/arm/packages && cd /srv/arm/packages
        apt-get -q download python3.11-minimal:arm64 libpython3.11-minimal:arm64 libpython3.11-stdlib:arm64 libexpat1:arm64 \
            zlib1g:arm64 libffi8:arm64 libc6:arm64 libgcc-s1:arm64
        for package in *.deb; do dpkg -x "$package" /srv/arm; done' > "$root.log" 2>&1 || { tail -n 5 "$root.log"; exit 1; }
}

has() {
    for archive in "$out"/$1; do [ ! -e "$archive" ] || return 0; done
    echo "skipped: $2, of which there is no archive"
    skipped=$((skipped + 1))
    return 1
}

# ---- C, C++, Ruby, Python, aarch64, the modules ----

release_tree bookworm gcc g++ clang make pkg-config libyaml-dev python3-venv python3-yaml ruby libc6-dev xz-utils clang-22 \
    gcc-aarch64-linux-gnu libc6-dev-arm64-cross qemu-user
cat > "$root/srv/use/kinds.c" << 'C'
#include <pokhvizi/steps.h>
#include <stdio.h>

int main(void)
{
    static const unsigned char kinds[] = {1, 10, 21, 15, 21, 11, 2}; /* [ a, b ] */
    static pokhvizi_span_t at;
    pokhvizi_steps_t steps;
    pokhvizi_event_t event;
    pokhvizi_fault_t fault;
    unsigned char states[20];
    pokhvizi_mark_t marks[20];
    size_t i = 0;

    pokhvizi_steps_new(&steps);
    while (i < sizeof kinds) {
        uint32_t did = pokhvizi_step(&steps, states, 20, marks, 20, kinds[i], 1, &at, &event, &fault);
        if (did == POKHVIZI_GAVE || did == POKHVIZI_STAYS)
            printf("%d ", event.kind);
        i += did == POKHVIZI_GAVE || did == POKHVIZI_WANTS;
        if (did > POKHVIZI_STAYS)
            break;
    }
    return 0;
}
C
kinds='1 3 7 6 6 8 4 2 '
folder=pokhvizi-$version-x86_64-linux
samples=/usr/local/share/doc/pokhvizi/examples
want 'checksums' '' 'sha256sum --quiet -c SHA256SUMS'
want 'make install' '' "tar xzf $folder.tar.gz && make -s -C $folder PREFIX=/usr/local install > said 2>&1 || cat said; ldconfig"
for compiler in gcc clang 'gcc -static'; do
    for sample in events:8 compose:4; do
        want "${sample%:*}.c, $compiler" "${sample#*:}" "$compiler -O2 $samples/${sample%:*}.c -o sample \$(pkg-config --cflags --libs pokhvizi) \
            -lyaml && printf 'a\n--- b\n' | ./sample | wc -l"
    done
done
want 'kinds.c as C++' "$kinds" "g++ -x c++ -Wall -Wextra -Werror kinds.c -o kinds \$(pkg-config --cflags --libs pokhvizi) && ./kinds"
write_parses
for program in 'python3 parse.py:8' 'ruby parse.rb:["a", "b"]'; do
    want "${program%%:*}" 'refused' "${program%%:*}"
    want "${program%%:*} over this libyaml" 'refused' "proved-libyaml --check ${program%%:*} 2> /dev/null || echo unused"
    want "${program%%:*} over it, with the fixes" "${program#*:}" "POKHVIZI_FIXES=1 proved-libyaml ${program%%:*}"
done
want 'pip install' '' "python3 -m venv --system-site-packages v && v/bin/pip install -q --no-index --no-deps pokhvizi-$version-*x86_64.whl"
for loader in CSafeLoader SafeLoader; do
    want "the wheel, $loader" "{'a': [1, {'b': 'c'}]} ['a', 'b']" "v/bin/python -c 'import yaml; from pokhvizi import $loader as Loader
print(yaml.load(\"a: [1, {b: c}]\", Loader=Loader),
      list(yaml.load_all(\"a\\n...\\nb\\n\", Loader=type(\"Fixed\", (Loader,), {\"fixes\": True}))))'"
done
if has "pokhvizi-$version-aarch64-linux.tar.gz" aarch64; then
    arm=pokhvizi-$version-aarch64-linux
    for words in '-static' "-Wl,-rpath,/srv/use/$arm/lib -L$arm/lib -lpokhvizi"; do
        case $words in -static) how="$words $arm/lib/libpokhvizi.a" ;; *) how=$words ;; esac
        want "aarch64, by qemu: ${words%% *}" "$kinds" "tar xzf $arm.tar.gz && aarch64-linux-gnu-gcc -O2 -Wall -Werror \
            kinds.c -o kinds -I$arm/include $how && qemu-aarch64 -L /usr/aarch64-linux-gnu ./kinds"
    done
    want 'the wheel for aarch64' 'libpokhvizi.so _yaml.abi3.so' "python3 -m zipfile -e pokhvizi-$version-*aarch64.whl w &&
        for file in libpokhvizi.so _yaml.abi3.so; do readelf -h w/pokhvizi/\$file | grep -q AArch64 && echo \$file; done | xargs"
    unpack_arm_python
    for loader in CSafeLoader SafeLoader; do
        want "the wheel for aarch64, by qemu: $loader" "aarch64 {'a': [1, {'b': 'c'}]} ['a', 'b']" "qemu-aarch64 -L /srv/arm -E PYTHONHOME=/srv/arm/usr \
            -E PYTHONPATH=w:/usr/lib/python3/dist-packages /srv/arm/usr/bin/python3.11 -c 'import platform, yaml; from pokhvizi import $loader as Loader
print(platform.machine(), yaml.load(\"a: [1, {b: c}]\", Loader=Loader),
      list(yaml.load_all(\"a\\n...\\nb\\n\", Loader=type(\"Fixed\", (Loader,), {\"fixes\": True}))))'"
    done
fi
if has "pokhvizi-$version-llvm.tar.gz" 'the LLVM modules'; then
    want 'the objects of the modules, by clang-22' 'pokhvizi_module.o: OK' \
        "tar xzf pokhvizi-$version-llvm.tar.gz && make -s -C pokhvizi-$version-llvm check 2>&1 | tr '\n' ' ' | sed 's/ \$//'"
    want 'the library of the modules' "$kinds" "make -s -C pokhvizi-$version-llvm > said 2>&1 || tail -n 3 said
        gcc -O2 kinds.c -o kinds -Ipokhvizi-$version-llvm/include pokhvizi-$version-llvm/libpokhvizi.a && ./kinds"
fi

# ---- Rust ----

if has "pokhvizi-unsafe-libyaml-$version.tar.gz" 'the crate'; then
    release_tree trixie cargo rustc gcc libc6-dev librust-serde-yaml-dev librust-unsafe-libyaml-dev librust-serde-derive-dev \
        librust-anyhow-dev librust-indoc-dev
    crates_of_tree
    patch="unsafe-libyaml = { path = \"/srv/use/pokhvizi-unsafe-libyaml-$version\" }"
    for features in 'unsafe-libyaml = { version = "0.2", features = ["fixes"] }:a b ' ':a refused '; do
        said_by=${features##*:} features=${features%:*}
        write_app app "$patch"
        want "serde_yaml over the crate${features:+, with the fixes}" "$said_by" "tar xzf pokhvizi-unsafe-libyaml-$version.tar.gz && cd app &&
            CARGO_HOME=/srv/use/home timeout 900 cargo run -q --offline"
    done
    want 'what stands on the crate' 'serde_yaml' \
        "cd app && CARGO_HOME=/srv/use/home cargo tree -q --offline -i unsafe-libyaml@0.2.12 | sed -n 's/^.── \\(serde_yaml\\) .*/\\1/p'"
    want "serde_yaml's own tests, with and without the crate" 'the same' "
        for how in plain proved; do
            rm -rf \$how && cp -RL /usr/share/cargo/registry/serde_yaml-* \$how && rm -f \$how/.cargo-checksum.json \$how/Cargo.lock
            [ \$how = plain ] || printf '[patch.crates-io]\n$patch\n' >> \$how/Cargo.toml
            (cd \$how && CARGO_HOME=/srv/use/home RUSTFLAGS='--cap-lints allow' cargo test -q --offline --no-fail-fast > ../\$how.said 2>&1)
            sed -n 's/^test result: .* \\([0-9]*\\) passed; \\([0-9]*\\) failed.*/\\1 \\2/p' \$how.said | awk '{ n += \$1; m += \$2 } END { print n + 0, m + 0 }' > \$how.count
        done
        grep -q 0.2.12 proved/Cargo.lock || echo 'without the patch'
        [ \"\$(cut -d' ' -f1 plain.count)\" -gt 100 ] && cmp plain.count proved.count && echo the same"
    echo "serde_yaml's tests (passed, failed): $(cat "$root/srv/use/plain.count") without, $(cat "$root/srv/use/proved.count") with the crate"
fi

echo "$right as wanted, $wrong wrong, $skipped skipped"
[ $wrong -eq 0 ]
