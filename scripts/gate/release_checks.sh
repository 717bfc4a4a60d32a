#!/bin/sh
# Makes a release of built libraries twice, compares the two, and installs and uses each archive in an empty place:
#
#     sh scripts/gate/release_checks.sh BUILT [all]
#
# BUILT is what build_c.sh made. The archives are those of release.sh for x86-64, with the modules if the word `all` is given,
# and for aarch64 too if BUILT/aarch64 is there. What is installed is used with a path of the system's alone and no variables:
# programs in C of 1989 to C++, by gcc and by clang, static and shared; a program over libyaml, with the archive's; the wheel in an environment of
# its own; the crate below serde_yaml. What lacks a tool is skipped, and named: clang, python3 with venv and PyYAML,
# cargo, and the crates of Debian's librust-unsafe-libyaml-dev, librust-serde-yaml-dev and those below it, in the folder that
# CLIENT_CRATES names or /usr/share/cargo/registry. The status is 1 if something is wrong.
#
# Run by check_programs.sh.
set -u
[ $# -ge 1 ] && [ -f "$1/libpokhvizi.a" ] && case ${2:-all} in all) ;; *) false ;; esac ||
    { echo "usage: sh scripts/gate/release_checks.sh BUILT [all], where build_c.sh made BUILT" >&2; exit 2; }
built=$(cd "$1" && pwd)
cd "$(dirname "$0")/../.." || exit 2
top=$PWD
work=$(mktemp -d) || exit 2
trap 'rm -rf "$work"' EXIT
crates=$(realpath "${CLIENT_CRATES:-/usr/share/cargo/registry}" 2> /dev/null || true)
cargo=$(command -v cargo || true)
version=$(cat VERSION)
wrong=0 skipped=0

complain() {
    echo "wrong: $*"
    wrong=$((wrong + 1))
}

skip() {
    echo "skipped: $*"
    skipped=$((skipped + 1))
}

# want WHAT WANTED COMMAND..: the command's output.
want() {
    what=$1 wanted=$2
    shift 2
    said=$("$@" 2>&1)
    if [ "$said" = "$wanted" ]; then echo "as wanted: $what"; else complain "$what: $said"; fi
}

# ---- The archives ----

machines=x86_64
[ ! -f "$built/aarch64/libpokhvizi.a" ] || machines="x86_64 aarch64"
for run in first second; do
    ORIGINAL=${ORIGINAL:-$(ls -d "$crates"/unsafe-libyaml-0.2.11 2> /dev/null)} MACHINES=$machines WITHOUT_MODULES=$([ $# -eq 2 ] || echo yes) \
        sh scripts/release.sh "$work/$run" "$built" > "$work/said" 2>&1 || { cat "$work/said"; complain "release.sh"; }
done
grep '^no ' "$work/said"
diff -r "$work/first" "$work/second" > /dev/null || complain "two releases differ: $(diff -rq "$work/first" "$work/second")"
out=$work/first
[ -s "$out/SHA256SUMS" ] || { complain "nothing was made"; exit 1; }
(cd "$out" && sha256sum --quiet -c SHA256SUMS) || complain "checksums"
mkdir "$work/unpacked"
for archive in "$out"/*.tar.gz; do
    tar xzf "$archive" -C "$work/unpacked"
done
want 'no path of this machine' '' sh -c "cd '$work/unpacked' && grep -rlE \"$top|$work|/opt/rattle\" . | head -n 3"
# licences_in ARCHIVE: how many there are in NOTICES, and beside it of libyaml's code.
licences_in() {
    case $1 in
    *.whl) python3 -c 'import sys, zipfile; z = zipfile.ZipFile(sys.argv[1])
print(*[z.read(name).decode() for name in z.namelist() if name.endswith(("/NOTICES", "/LICENSE.libyaml"))])' "$1" ;;
    *) tar xzOf "$1" --wildcards '*/NOTICES' '*/LICENSE.libyaml' '*/original/LICENSE-MIT' 2> "$work/said" ;;
    esac | grep -c 'Permission is hereby granted'
}
for archive in "$out"/*.tar.gz "$out"/*.whl; do
    names=$(python3 -c 'import sys, tarfile, zipfile; name = sys.argv[1]
print(*zipfile.ZipFile(name).namelist() if name.endswith(".whl") else tarfile.open(name).getnames(), sep="\n")' "$archive")
    of_libyaml=$(echo "$names" | grep -c -m 1 -e '/libyaml-0\.so' -e '\.dist-info/WHEEL$' -e '/original/src$')
    want "licences of four ported crates, and of libyaml where its code may be, in ${archive##*/}" $((4 + of_libyaml)) licences_in "$archive"
done

# ---- C ----

cd "$work" || exit 2
unset CC CXX CFLAGS LD_LIBRARY_PATH LD_PRELOAD PYTHONPATH POKHVIZI_DIR POKHVIZI_LIBRARY
PATH=/usr/bin:/bin
export PATH
installed=$work/installed
make -s -C "unpacked/pokhvizi-$version-x86_64-linux" PREFIX="$installed" install > "$work/said" 2>&1 || complain "make install: $(cat "$work/said")"
export PKG_CONFIG_PATH="$installed/lib/pkgconfig"
cat > three.c << 'C'
#include <pokhvizi/compose.h>
#include <pokhvizi/steps.h>
#include <stdio.h>

int main(void)
{
    static const unsigned char kinds[] = {1, 10, 21, 15, 21, 11, 2}; /* [ a, b ] */
    static pokhvizi_span_t at;
    pokhvizi_steps_t steps;
    pokhvizi_event_t event;
    pokhvizi_fault_t fault;
    pokhvizi_composer_t composer;
    pokhvizi_open_t stack[2];
    pokhvizi_place_t place;
    unsigned char states[20];
    pokhvizi_mark_t marks[20];
    size_t i = 0;

    pokhvizi_steps_new(&steps);
    pokhvizi_composer_new(&composer, 100);
    while (i < sizeof kinds) {
        uint32_t did = pokhvizi_step(&steps, states, 20, marks, 20, kinds[i], 1, &at, &event, &fault);
        if (did == POKHVIZI_GAVE || did == POKHVIZI_STAYS)
            printf("%d:%u ", event.kind, pokhvizi_compose(&composer, stack, 2, event.kind, 0, &place));
        i += did == POKHVIZI_GAVE || did == POKHVIZI_WANTS;
        if (did > POKHVIZI_STAYS)
            break;
    }
    putchar('\n');
    return 0;
}
C
run='1:0 3:1 7:3 6:4 6:4 8:7 4:2 2:0 '
strict='-Wall -Wextra -Werror -pedantic'
for words in 'gcc -std=c89' 'gcc -std=c11' 'gcc -static' 'g++ -x c++' 'clang -std=c99' 'clang++ -x c++'; do
    command -v "${words%% *}" > /dev/null || { skip "$words, which isn't there"; continue; }
    case $words in
    *-static) $words $strict three.c -o three $(pkg-config --cflags --libs pokhvizi) ;;
    *) $words $strict three.c -o three $(pkg-config --cflags pokhvizi) -x none $(pkg-config --libs pokhvizi) -Wl,-rpath,"$installed/lib" ;;
    esac || complain "$words does not compile"
    want "$words" "$run" ./three
done
want 'names that are handed out' \
    'pokhvizi_carrier pokhvizi_compose pokhvizi_composer_new pokhvizi_count pokhvizi_differs pokhvizi_directive_fact pokhvizi_expected pokhvizi_size_new pokhvizi_step pokhvizi_step_exact pokhvizi_steps_new pokhvizi_tag pokhvizi_version_fact' \
    sh -c "nm -D --defined-only '$installed/lib/libpokhvizi.so' | sed -n 's/.* T \([a-z_]*\).*/\1/p' | sort | tr '\n' ' ' | sed 's/ \$//'"
want 'what the shared library needs' 'libc.so.6' sh -c "readelf -d '$installed/lib/libpokhvizi.so' | sed -n 's/.*NEEDED.*\[\(.*\)\]/\1/p'"
for sample in events compose; do
    gcc -O2 "$installed/share/doc/pokhvizi/examples/$sample.c" -o $sample $(pkg-config --cflags pokhvizi) "$installed/lib/libpokhvizi.a" -lyaml || complain "$sample.c"
done
want 'the sample of documents' '1 scalar a ... 1 scalar b ...' sh -c "printf 'a\n--- b\n' | ./compose | tr '\n' ' ' | sed 's/ \$//'"
want 'the sample of events' '8' sh -c "printf 'a\n...\nb\n' | ./events | wc -l"
if python3 -c 'import yaml; yaml.CLoader' 2> /dev/null; then
    cat > parse.py << 'PYTHON'
import yaml
try:
    print(len(list(yaml.parse("a\n...\nb\n", yaml.CLoader))))
except yaml.parser.ParserError as failure:
    print(failure.problem)
PYTHON
    want 'a program over libyaml' 'did not find expected <document start>' "$installed/bin/proved-libyaml" python3 parse.py
    want 'a program over libyaml, with the fixes' 8 env POKHVIZI_FIXES=1 "$installed/bin/proved-libyaml" python3 parse.py
else
    skip "a program over libyaml: python3 lacks PyYAML's C part"
fi
cat > use.c << 'C'
#include <stdio.h>
#include <string.h>
#include <unistd.h>
#include <yaml.h>

extern char **environ;

int main(int count, char **words)
{
    yaml_parser_t parser;
    yaml_event_t event;

    (void)words;
    for (char **one = environ; *one != NULL; one++)  /* as a program does that writes its title there */
        memset(*one, ' ', strlen(*one));
    if (count > 1 || chdir("/") != 0 || !yaml_parser_initialize(&parser))
        return 7;
    yaml_parser_set_input_string(&parser, (const unsigned char *)"a", 1);
    return yaml_parser_parse(&parser, &event) ? 0 : 1;
}
C
starter=$installed/bin/proved-libyaml
library=$installed/lib/pokhvizi/libyaml-0.so.2
gcc -O2 use.c -o use -lyaml || complain "use.c"
want 'a program that is checked' "proved-libyaml: ./use used the proved parser, Pokhvizi $version" "$starter" --check ./use
mkdir named temporary
cp use named/stop
printf '#!/bin/sh\necho warning >&2\nexec /bin/sh "$@"\n' > named/sh && chmod +x named/sh
want 'a program with the name of a shell function' "proved-libyaml: stop used the proved parser, Pokhvizi $version" \
    env "PATH=$PWD/named:$PATH" TMPDIR=temporary "$starter" --check stop
want 'a shell that warns of its locale' 'status 0' sh -c "PATH='$PWD/named:$PATH' '$starter' ./use; echo status \$?"
want 'a file that a signal leaves' '' \
    sh -c "TMPDIR=temporary '$starter' --check sleep 1 2> /dev/null & sleep 0.3; kill \$!; wait; ls temporary"
want 'its status' 'status 7' sh -c "'$starter' ./use other; echo status \$?"
want 'a program that parses nothing' "proved-libyaml: ./use didn't use the proved parser, status 1" \
    sh -c "said=\$('$starter' --check ./use other 2>&1); echo \"\$said, status \$?\""
gcc -O2 -static use.c -o static -lyaml || complain "use.c, statically"
want 'a program that contains libyaml' "proved-libyaml: ./static didn't use the proved parser, status 1" \
    sh -c "said=\$('$starter' --check ./static 2>&1); echo \"\$said, status \$?\""
want 'a bound that is no number' "proved-libyaml: the library can't be used: libyaml-0.so.2, proved: POKHVIZI_MAX_NODES is no number: many; ./use is not run" \
    env POKHVIZI_MAX_NODES=many "$starter" ./use
mv "$library" kept.so
want 'no library, no run' "proved-libyaml: $installed/lib/pokhvizi/libyaml-0.so.2 isn't there; ./use is not run 1" \
    sh -c "said=\$('$starter' ./use 2>&1); echo \"\$said \$?\""
printf 'none' > "$library"
want 'a library that is none' 1 sh -c "'$starter' ./use 2> /dev/null; echo \$?"
mv kept.so "$library"
mkdir 'with space' && cp -R "$installed/." 'with space'
sed -i "s#^lib=.*#lib=\$here/../lib#" 'with space/bin/proved-libyaml'
want 'a path with a space' 1 sh -c "'with space/bin/proved-libyaml' ./use 2> /dev/null; echo \$?"
if [ -e "$installed/lib/pokhvizi/libyaml.a" ]; then
    gcc -O2 -static use.c -o static -L"$installed/lib/pokhvizi" -lyaml || complain "use.c, statically over the proved libyaml"
    want 'a program that contains the proved libyaml' "proved-libyaml: ./static used the proved parser, Pokhvizi $version" "$starter" --check ./static
fi
library=$PWD/system/lib/libyaml-0.so.2
for again in first second; do
    make -s -C "unpacked/pokhvizi-$version-x86_64-linux" PREFIX="$PWD/system" install-libyaml
    [ $again = second ] || exec 9< "$library"
done
want 'a library in use, which another takes the place of' no sh -c "[ /proc/self/fd/9 -ef '$library' ] || echo no"
exec 9<&-
want 'libyaml where programs look for it' "$PWD/system/lib/libyaml-0.so.2" sh -c "LD_LIBRARY_PATH='$PWD/system/lib' ldd ./use | sed -n 's/.*libyaml-0.so.2 => \\([^ ]*\\).*/\\1/p'"
make -s -C "unpacked/pokhvizi-$version-x86_64-linux" PREFIX="$PWD/system" uninstall-libyaml
want 'what uninstalling libyaml leaves' '' find "$PWD/system" ! -type d
make -s -C "unpacked/pokhvizi-$version-x86_64-linux" PREFIX="$installed" uninstall
want 'what uninstalling leaves' '' find "$installed" ! -type d

# ---- Python ----

cat > ask.py << 'PYTHON'
import sys
import yaml
import pokhvizi
loader = getattr(pokhvizi, sys.argv[1])
class Fixed(loader):
    fixes = True
print(yaml.load("a: [1, {b: c}]\n", Loader=loader), [d for d in yaml.load_all("a\n...\nb\n", Loader=Fixed)])
PYTHON
if python3 -c 'import yaml, venv' 2> /dev/null && python3 -m venv --system-site-packages environment > "$work/said" 2>&1; then
    environment/bin/pip install -q --no-index --no-deps "$out"/pokhvizi-*x86_64.whl > "$work/said" 2>&1 || complain "pip install: $(cat "$work/said")"
    for loader in CSafeLoader SafeLoader; do
        want "the wheel, $loader" "{'a': [1, {'b': 'c'}]} ['a', 'b']" env -i environment/bin/python ask.py $loader
    done
    want 'its version' "$version" env -i environment/bin/python -c 'import pokhvizi; print(pokhvizi.__version__)'
else
    skip "the wheel: python3 lacks venv or PyYAML"
fi

# ---- Rust ----

if [ -n "$cargo" ] && ls -d "$crates"/serde_yaml-* unpacked/pokhvizi-unsafe-libyaml-* > /dev/null 2>&1; then
    mkdir -p home app/src
    printf '[source.crates-io]\nreplace-with = "debian"\n[source.debian]\ndirectory = "%s"\n[net]\noffline = true\n' "$crates" > home/config.toml
    cat > app/src/main.rs << 'RUST'
use serde::Deserialize;

fn main() {
    for document in serde_yaml::Deserializer::from_str("a\n...\nb\n").take(2) {
        match serde_yaml::Value::deserialize(document) {
            Ok(value) => print!("{} ", value.as_str().unwrap()),
            Err(_) => print!("refused "),
        }
    }
}
RUST
    for features in 'fixes:a b ' ':a refused '; do
        {
            printf '[package]\nname = "app"\nversion = "0.1.0"\nedition = "2021"\n[dependencies]\nserde = "1"\nserde_yaml = "0.9"\n'
            [ -z "${features%%:*}" ] || printf 'unsafe-libyaml = { version = "0.2", features = ["%s"] }\n' "${features%%:*}"
            printf '[patch.crates-io]\nunsafe-libyaml = { path = "%s" }\n' "$work"/unpacked/pokhvizi-unsafe-libyaml-*
        } > app/Cargo.toml
        want "the crate, below serde_yaml, features: ${features%%:*}" "${features#*:}" \
            sh -c "cd app && PATH='${cargo%/*}:$PATH' CARGO_HOME='$work/home' timeout 600 '$cargo' run -q --offline"
    done
    for how in patched plain; do
        mkdir -p $how/src
        printf 'fn main() { println!("{}", unsafe_libyaml::POKHVIZI_VERSION); }\n' > $how/src/main.rs
        sed -e 's/^name.*/name = "named"/' -e 's/^serde_yaml.*/unsafe-libyaml = "0.2"/' app/Cargo.toml > $how/Cargo.toml
    done
    sed -i '/^\[patch/,$d' plain/Cargo.toml
    want 'a program that names the version' "$version" sh -c "cd patched && PATH='${cargo%/*}:$PATH' CARGO_HOME='$work/home' timeout 600 '$cargo' run -q --offline"
    want 'the same without the patch' 1 sh -c "cd plain && PATH='${cargo%/*}:$PATH' CARGO_HOME='$work/home' timeout 600 '$cargo' run -q --offline 2>&1 | grep -c '^error.*POKHVIZI_VERSION'"
else
    skip "the crate: cargo or serde_yaml isn't there, or no archive for Rust was made"
fi

# ---- LLVM ----

if [ -d "unpacked/pokhvizi-$version-llvm" ]; then
    if command -v clang-22 > /dev/null; then
        want 'the objects of the modules' 'pokhvizi_module.o: OK' \
            sh -c "cd unpacked/pokhvizi-$version-llvm && make -s check | tr '\n' ' ' | sed 's/ \$//'"
    else
        skip "the objects of the modules: clang-22 isn't there"
    fi
fi
echo "$wrong wrong, $skipped skipped"
[ $wrong -eq 0 ]
