#!/bin/sh
# Builds and uses what a clone gives without the kit, in a Debian tree that has stock tools alone:
#
#     sh scripts/clone_trees.sh TREES [all|arm64]
#
#     Rust      plain_rust.sh: tests, pages, package, a user's crate, the scanner; a program over serde_yaml and bindings/rust
#     C         make, make install; programs in C and C++, shared and static; programs in Python and Ruby over its libyaml
#     Python    a wheel of the clone, a wheel of its archive of sources, and loads over both
#     machines  with the word `all`, platforms.sh: i686, aarch64, riscv64, s390x and wasm32
#
# With the word `arm64` the tree is one of aarch64, whose programs qemu runs: there C and Python, and of Rust the package alone.
#
# It types what README's table says, and reads a text that libyaml refuses, with the fixes and without. The clone is the last commit.
# The original of `unsafe-libyaml` is that of Debian's package, in place of the one by its commit, which is on the network. TREES has
# the folder `trixie` or `trixie-arm64`; one that isn't there is made by debootstrap. Needs root, debootstrap, git and Debian's
# packages over the network, for arm64 also qemu-user-static with binfmt_misc; ten minutes, otherwise half an hour or more. The last line counts; the status is 1 if something is wrong.
#
# Run by hand, for a release.
set -u
usage='usage: sh scripts/clone_trees.sh TREES [all|arm64]'
case ${1-} in '' | -*) echo "$usage" >&2; exit 2 ;; esac
case $#${2-} in 1 | 2all | 2arm64) ;; *) echo "$usage" >&2; exit 2 ;; esac
[ "$(id -u)" = 0 ] || { echo "clone_trees.sh: needs root" >&2; exit 2; }
mkdir -p "$1"
trees=$(cd "$1" && pwd)
cd "$(dirname "$0")/.." || exit 2
version=$(cat VERSION)
. scripts/parts/trees.sh

tools='rustc cargo gcc g++ make pkg-config binutils libyaml-dev python3-dev python3-venv python3-pip python3-yaml ruby git'
case ${2-} in
    # shellcheck disable=SC2086
    arm64) arch=arm64 tree trixie-arm64 $tools ;;
    # shellcheck disable=SC2086
    *) arch='' tree trixie $tools rust-clippy librust-unsafe-libyaml-dev librust-serde-yaml-dev librust-serde-derive-dev ;;
esac
machine=$(chroot "$root" uname -m)
git clone -q --no-hardlinks . "$root/srv/use/clone"

# ---- Rust ----

rust_over_the_clone() {
    want 'the crate, by plain_rust.sh' '0 wrong' "cd clone && sh scripts/gate/plain_rust.sh > ../said 2>&1; tail -n 1 ../said | grep -o '0 wrong.*' || cat ../said"

    crates_of_tree
    want 'the original from a folder' '' "sh clone/scripts/parts/rust_manifest.sh /usr/share/cargo/registry/unsafe-libyaml-0.2.11 ../.. > Cargo.toml &&
        cp clone/bindings/rust/Cargo.toml kept && mv Cargo.toml clone/bindings/rust"
    for features in 'unsafe-libyaml = { version = "0.2", features = ["fixes"] }:a b ' ':a refused '; do
        said_by=${features##*:} features=${features%:*}
        write_app app 'unsafe-libyaml = { path = "/srv/use/clone/bindings/rust" }'
        want "serde_yaml over the clone${features:+, with the fixes}" "$said_by" \
            "cd app && CARGO_HOME=/srv/use/home timeout 900 cargo run -q --offline"
    done
    want 'the patch is taken' 'serde_yaml' \
        "cd app && CARGO_HOME=/srv/use/home cargo tree -q --offline -i unsafe-libyaml@0.2.12 | sed -n 's/^.── \\(serde_yaml\\) .*/\\1/p'"
    want 'the original by its commit again' '' 'mv kept clone/bindings/rust/Cargo.toml'

    # The clone stands within the workspace of a program.
    mkdir -p "$root/srv/use/texts/src"
    printf '[package]\nname = "texts"\nversion = "0.1.0"\nedition = "2021"\n[dependencies]\npokhvizi-libyaml = { path = "clone/bindings/plain/libyaml" }\n[workspace]\n' \
        > "$root/srv/use/texts/Cargo.toml"
    echo 'fn main() { print!("{}", pokhvizi_libyaml::from_str("a: [b]").unwrap().text_at(&["a", "0"]).unwrap()); }' > "$root/srv/use/texts/src/main.rs"
    want 'pokhvizi-libyaml' 'b' 'cp -R clone texts && cd texts && CARGO_HOME=/srv/use/home cargo run -q --offline'
}

if [ "${2-}" = arm64 ]; then
    want 'a package of the crate' '' 'cd clone && cargo package -q --offline --allow-dirty --target-dir /srv/use/package'
else
    rust_over_the_clone
fi

# ---- C ----

want 'make, make install' '' "make -s -C clone/bindings/c BUILD=/srv/use/c > said 2>&1 &&
    make -s -C clone/bindings/c BUILD=/srv/use/c PREFIX=/usr/local install >> said 2>&1 || cat said; ldconfig"
want 'the version of its pkg-config' "$version" 'pkg-config --modversion pokhvizi'
samples=/usr/local/share/doc/pokhvizi/examples
for compiler in gcc 'gcc -static'; do
    for sample in events:8 compose:4; do
        want "${sample%:*}.c, $compiler" "${sample#*:}" "$compiler -O2 $samples/${sample%:*}.c -o sample \$(pkg-config --cflags --libs pokhvizi) \
            -lyaml && printf 'a\n--- b\n' | ./sample | wc -l"
    done
done
want 'a program in C++' '0' "printf '#include <pokhvizi/steps.h>\nint main() { pokhvizi_steps_t s; pokhvizi_steps_new(&s); return 0; }\n' > a.cc &&
    g++ -Wall -Wextra -Werror a.cc -o a \$(pkg-config --cflags --libs pokhvizi) && ./a; echo \$?"
write_parses
for program in 'python3 parse.py:8' 'ruby parse.rb:["a", "b"]'; do
    want "${program%%:*}" 'refused' "${program%%:*}"
    want "${program%%:*} over this libyaml" 'refused' "proved-libyaml --check ${program%%:*} 2> /dev/null || echo unused"
    want "${program%%:*} over it, with the fixes" "${program#*:}" "POKHVIZI_FIXES=1 proved-libyaml ${program%%:*}"
done
cat > "$root/srv/use/load.c" << 'C'
#include <yaml.h>
int main(void) {
    yaml_parser_t parser;
    yaml_document_t document;
    yaml_parser_initialize(&parser);
    yaml_parser_set_input_file(&parser, stdin);
    return yaml_parser_load(&parser, &document) ? 0 : puts(parser.problem);
}
C
want 'a program that links this libyaml' 'found duplicate key' 'gcc load.c -Wl,-rpath,/usr/local/lib/pokhvizi -o load \
    $(PKG_CONFIG_PATH=/usr/local/lib/pokhvizi/pkgconfig pkg-config --cflags --libs yaml-0.1) && printf "a: 1\na: 2\n" | POKHVIZI_UNIQUE_KEYS=1 ./load'
want 'make uninstall' '' "make -s -C clone/bindings/c BUILD=/srv/use/c PREFIX=/usr/local uninstall && find /usr/local | grep -i -e pokhvizi -e proved; true"

want 'the libraries by their scripts' '' 'cd clone && sh scripts/build_plain.sh build && sh bindings/c/build_libyaml.sh build'
want 'a program by LD_LIBRARY_PATH' '8' 'POKHVIZI_FIXES=1 LD_LIBRARY_PATH=$PWD/clone/build/libyaml python3 parse.py'
want 'the front program' 'DOCUMENT 0:0:0 2:1:0 1 1 - 0
1 SCALAR 0:0:0 1:0:1 =tag:yaml.org,2002:str =a plain' 'cd clone && echo a > a.yaml && build/yaml nodes a.yaml && rm -r a.yaml build'

# ---- Python ----

want 'pip install, on a machine without git' "$version" "mv /usr/bin/git /srv/use/git; python3 -m venv --system-site-packages env && cd clone &&
    ../env/bin/pip install -q --no-index ./bindings/python; cd ..; mv git /usr/bin/git; env/bin/python -c 'import pokhvizi; print(pokhvizi.__version__)'"
want 'a wheel of the clone' "pokhvizi-$version-cp38-abi3-linux_$machine.whl" \
    "python3 -m venv --system-site-packages v && v/bin/pip wheel -q --no-index --no-deps -w wheels ./clone/bindings/python && ls wheels"
want 'an archive of its sources' "pokhvizi-$version.tar.gz" "cd clone/bindings/python && python3 -c 'import backend; print(backend.build_sdist(\"/srv/use\"))'"
want 'a wheel of that archive' "pokhvizi-$version-cp38-abi3-linux_$machine.whl" \
    "v/bin/pip wheel -q --no-index --no-deps -w others pokhvizi-$version.tar.gz && ls others"
for wheels in wheels others; do
    for loader in CSafeLoader SafeLoader; do
        want "$wheels, $loader" "{'a': [1, {'b': 'c'}]} ['a', 'b']" "v/bin/pip install -q --force-reinstall --no-index --no-deps $wheels/*.whl &&
            v/bin/python -c 'import yaml; from pokhvizi import $loader as Loader
print(yaml.load(\"a: [1, {b: c}]\", Loader=Loader),
      list(yaml.load_all(\"a\\n...\\nb\\n\", Loader=type(\"Fixed\", (Loader,), {\"fixes\": True}))))'"
    done
done

# ---- Other machines ----

# Debian's mirrors may lack a package of a machine's own that only programs on it need: so rustc's library alone is unpacked.
unpack_libraries() {
    chroot "$root" sh -eu -c '
        apt-get -q -y --no-install-recommends install qemu-user nodejs lld wasi-libc libstd-rust-dev-wasm32
        for machine in i386:i686 arm64:aarch64 riscv64:riscv64 s390x:s390x; do
            arch=${machine%:*}
            dpkg --add-architecture $arch
            apt-get -q -y --no-install-recommends install gcc-${machine#*:}-linux-gnu libc6-dev-$arch-cross
        done
        apt-get -q update
        version=$(dpkg-query -W -f "\${Version}" rustc)
        mkdir -p /srv/libraries && cd /srv/libraries
        for arch in i386 arm64 riscv64 s390x; do apt-get -q download libstd-rust-dev:$arch=$version; done
        for package in *.deb; do dpkg -x "$package" /; done' > "$root.log" 2>&1 || { tail -n 5 "$root.log"; exit 1; }
}

if [ "${2-}" = all ]; then
    unpack_libraries
    want 'other machines' '0 wrong, 0 skipped' "cd clone && sh scripts/gate/platforms.sh > ../said 2>&1; tail -n 1 ../said | grep -o '[0-9]* wrong.*'"
    sed 's/^/    /' "$root/srv/use/said"
fi

echo "$right as wanted, $wrong wrong"
[ $wrong -eq 0 ]
