#!/bin/sh
# Builds the crate `pokhvizi`, the proved source text as rustc reads it, with stock cargo as a user does,
# without network:
#
#     sh scripts/gate/plain_rust.sh
#
# Runs its tests, without features, with `alloc` and with all (docs/GATE.md), and the programs of its README. Makes its pages, and asks clippy, which may not warn.
# Makes its package, which has each source as it stands here, and tests that alone; a crate that names it
# in two lines parses and loads. A line of a list that is
# changed there must fail the test, and a construct that isn't known must end the build with its file and
# line. What is left out is what left_out.py finds. Runs the tests of pokhvizi-libyaml, and the examples over it, if the crate unsafe-libyaml 0.2.11 is in the folder that CLIENT_CRATES
# names or /usr/share/cargo/registry, and else says so in the last line. Last it builds C's library by build_plain.sh, and runs the samples of
# yaml.c over it.
#
# The status is 0 if all is as it should be. Needs what build_plain.sh needs.
#
# Run by check_programs.sh.
set -u
[ $# = 0 ] || { echo "usage: sh scripts/gate/plain_rust.sh" >&2; exit 2; }
cd "$(dirname "$0")/../.." || exit 2
work=$(mktemp -d) || exit 2
trap 'rm -rf "$work"' EXIT
export CARGO_TARGET_DIR="$work/target" CARGO_NET_OFFLINE=true
unset POKHVIZI_DIR RUSTFLAGS
wrong=0

complain() {
    echo "wrong: $*"
    wrong=$((wrong + 1))
}

tests=$(cargo test --no-default-features 2> "$work/said" && cargo test --no-default-features --features alloc 2>> "$work/said" &&
    cargo test 2>> "$work/said") || { cat "$work/said"; echo "$tests"; complain "a test"; }
grep -A 5 '^warning' "$work/said" && complain "a warning"
passed=$(echo "$tests" | sed -n 's/^test result: ok. \([0-9]*\) passed.*/\1/p' | awk '{ n += $1 } END { print n + 0 }')
[ "$passed" -ge 80 ] || complain "only $passed tests"
RUSTDOCFLAGS='-D warnings' cargo doc -q --no-deps > "$work/said" 2>&1 || { cat "$work/said"; complain "the pages"; }
if cargo clippy --version > /dev/null 2>&1; then
    cargo clippy -q --all-targets -- -D warnings > "$work/said" 2>&1 || { cat "$work/said"; complain "clippy"; }
else
    echo "clippy isn't there"
fi

# ---- The package ----

cargo package -q --allow-dirty > "$work/said" 2>&1 || { cat "$work/said"; complain "the package"; }
package=$work/target/package/pokhvizi-$(cat VERSION)
[ -d "$package" ] || { complain "the package has another version"; exit 1; }
sources=$(cd "$package" && find crates bindings -type f)
for source in $sources; do
    cmp -s "$source" "$package/$source" || complain "$source differs in the package"
done
[ "$(echo "$sources" | grep -c '\.rt$')" -ge 100 ] || complain "the package lacks sources"

(cd "$package" && cargo test -q) > "$work/said" 2>&1 || { cat "$work/said"; complain "a test of the package"; }

# A user's crate, which names the package in two lines.
mkdir -p "$work/app/src"
printf '[package]\nname = "app"\nversion = "0.1.0"\nedition = "2021"\n[dependencies]\npokhvizi = { path = "%s" }\n' \
    "$package" > "$work/app/Cargo.toml"
printf '[profile.release]\nlto = true\npanic = "abort"\noverflow-checks = true\n' >> "$work/app/Cargo.toml"
cat > "$work/app/src/main.rs" << 'RUST'
use pokhvizi::yaml::{Documents, Encoding, Mark, Parser, ScalarStyle, SourceError, Token, TokenData, TokenSource};

struct Words<'a>(std::str::SplitWhitespace<'a>, u64);

impl TokenSource for Words<'_> {
    fn next_token(&mut self) -> Result<Token, SourceError> {
        let place = Mark { index: self.1, line: 0, column: self.1 };
        self.1 += 1;
        let data = match (self.1, self.0.next()) {
            (1, _) => TokenData::stream_start(Encoding::UTF8),
            (_, None) => TokenData::StreamEnd,
            (_, Some("[")) => TokenData::FlowSequenceStart,
            (_, Some("]")) => TokenData::FlowSequenceEnd,
            (_, Some(",")) => TokenData::FlowEntry,
            (_, Some("?")) => return Err(SourceError::scanner_error("found a question", place)),
            (_, Some(word)) => TokenData::scalar(word, ScalarStyle::PLAIN)?,
        };
        Ok(Token::new(data, place, place))
    }
}

fn main() -> Result<(), Box<dyn std::error::Error>> {
    let words = |text| Words(text, 0);
    for event in Parser::new(words("- [ a , b ]".split_whitespace())) {
        print!("{} ", event?.type_().number());
    }
    for document in Documents::new(words("- [ a , b ]".split_whitespace())) {
        print!("{:?} ", document?.text_at(&["1"]));
    }
    Parser::new(words("- [ a ?".split_whitespace())).try_for_each(|event| event.map(drop))?;
    Ok(())
}
RUST
said=$(cd "$work/app" && cargo run -q --release 2> "$work/said")
[ "$said" = '1 3 7 6 6 8 4 2 Some("b") ' ] && grep -q 'problem: Some("found a question"), mark: .* column: 3 }' "$work/said" ||
    { cat "$work/said"; complain "a user's crate: $said"; }

# ---- What must fail ----

lines=$package/bindings/plain/tests/data/steps/configuration
for turned in steps deeds sizes; do
    cp "$lines.$turned" "$work/kept"
    sed '7s/$/ 0/' "$work/kept" > "$lines.$turned"
    (cd "$package" && cargo test -q --test steps) > "$work/said" 2>&1 && complain "a changed line of configuration.$turned isn't seen"
    grep -q "configuration.$turned" "$work/said" || { cat "$work/said"; complain "configuration.$turned isn't named"; }
    cp "$work/kept" "$lines.$turned"
done
source=crates/token_steps/src/did.rt
line=$(($(wc -l < $source) + 1))
echo 'fn f() { prove!(true); }' >> "$package/$source"
(cd "$package" && cargo build -q) > "$work/said" 2>&1 && complain "what isn't known ends no build"
grep -q "/$source:$line: .prove" "$work/said" || { cat "$work/said"; complain "what isn't known isn't named"; }

python3 scripts/gate/left_out.py > "$work/said" || { cat "$work/said"; complain "what is left out"; }
tail -n 1 "$work/said"

# ---- The target for cargo-fuzz, over a stub in place of libFuzzer ----

mkdir -p "$work/stub/src" "$work/none" "$work/fuzz_home"
printf '[package]\nname = "libfuzzer-sys"\nversion = "0.4.10"\nedition = "2021"\n' > "$work/stub/Cargo.toml"
cat > "$work/stub/src/lib.rs" << 'RUST'
#[macro_export]
macro_rules! fuzz_target {
    (|$bytes:ident: &[u8]| $body:block) => {
        #[no_mangle]
        pub extern "C" fn main() -> i32 {
            let $bytes: &[u8] = &[10, 27, 16, 59, 11];
            $body
            0
        }
    };
}
RUST
printf '[source.crates-io]\nreplace-with = "none"\n[source.none]\ndirectory = "%s"\n[patch.crates-io]\nlibfuzzer-sys = { path = "%s" }\n' \
    "$work/none" "$work/stub" > "$work/fuzz_home/config.toml"
CARGO_HOME=$work/fuzz_home cargo run -q --manifest-path bindings/plain/fuzz/Cargo.toml --bin tokens > "$work/said" 2>&1 ||
    { cat "$work/said"; complain "the target for cargo-fuzz"; }

# ---- Examples, with what they print ----

cat > "$work/lint.yaml" << 'YAML'
a: &x 1
b: &y [*x]
"a": 3
c:
  k: 1
  l: 2
  *x : 4
  k: 5
---
? {a: 1}
: &z 1
? {a: 1}
: 2
--- {!x k: 1, !y k: 2}
--- [[[[[a], {}]]], [[[{b: c}]]]]
YAML
cat > "$work/outline.yaml" << 'YAML'
name: box
sizes:
  - 1
  - [2, 3]
  - {x: *a}
 color: red
after: never
YAML

# ---- libyaml's scanner before it ----

crates=$(realpath "${CLIENT_CRATES:-/usr/share/cargo/registry}" 2> /dev/null || true)
without=
if [ -d "$crates/unsafe-libyaml-0.2.11" ]; then
    mkdir "$work/home"
    printf '[source.crates-io]\nreplace-with = "debian"\n[source.debian]\ndirectory = "%s"\n' "$crates" > "$work/home/config.toml"
    CARGO_HOME=$work/home cargo test -q --manifest-path bindings/plain/libyaml/Cargo.toml > "$work/said" 2>&1 || { cat "$work/said"; complain "the tests over libyaml's scanner"; }
    at=$work/target/debug/examples/at
    [ "$("$at" services web image < examples/compose.yaml)" = nginx:1.25 ] || complain "the text at a path"
    [ "$("$at" < examples/list.yaml | wc -l)" -eq "$(wc -l < examples/list.events)" ] || complain "the events of the scanner"
    for name in lint outline; do
        # The crate has one word for what ends a block.
        "$work/target/debug/examples/$name" < "$work/$name.yaml" | sed 's/^\(expected the end of the block\) .*/\1/' |
            cmp - "bindings/plain/examples/$name.stdout" || complain "the example $name"
        if echo '- *a' | "$work/target/debug/examples/$name" 2> "$work/said" | cmp -s - "bindings/plain/examples/$name.stdout"; then
            complain "the example $name says the same of another text"
        fi
    done
else
    without="; not run: pokhvizi-libyaml and its examples, since unsafe-libyaml 0.2.11 isn't there"
fi

# ---- C ----

if sh scripts/build_plain.sh "$work/c" > "$work/said" 2>&1; then
    for mode in events nodes; do
        for name in list compose; do
            "$work/c/yaml" $mode examples/$name.yaml | cmp - examples/$name.$mode || complain "$mode of examples/$name.yaml"
        done
    done
    for name in lint outline; do
        "$work/c/yaml" tokens "$work/$name.yaml" | cmp - "bindings/plain/examples/$name.tokens" || complain "the tokens of the example $name"
    done
else
    cat "$work/said"
    complain "build_plain.sh"
fi
echo "$passed tests, $(echo "$sources" | grep -c '\.rt$') sources, $(wc -c < "$work/c/libpokhvizi.a") bytes of library; $wrong wrong$without"
[ $wrong -eq 0 ]
