#!/bin/sh
# Measures programs that stand on unsafe-libyaml, libyaml and PyYAML over this parser beside the same without it:
#
#     sh bench/clients.sh DIR [TURNS]
#
# DIR has the libraries that build_c.sh made there. Prints the rows of bench/results/clients.md, by paired.py: how many times the
# instructions, and the time by TURNS turns (21; of PyYAML a third as many), best if nothing else runs. The text has 350 KB,
# examples/compose.yaml as many documents. psych reads the YAML files of this machine, SAMPLE at most (2000; counted 400), and
# then that text ten times (counted once). PyYAML's loader in Python is counted over a tenth of the text. Its C loaders load the
# text ten times (counted one load), by a loader for all documents and by one for each, and a text that has the same in one
# document, by nodes alone too.
#
# Needs valgrind, a C compiler, cargo, Debian's libyaml-dev, python3-dev, ruby and python3-yaml, and the crate unsafe-libyaml 0.2.11 in the folder
# that CLIENT_CRATES names, /usr/share/cargo/registry if it isn't set. PYTHON and RUBY are Debian's.
set -eu
case ${1-} in '' | -*) echo "usage: sh bench/clients.sh DIR [TURNS]" >&2; exit 2 ;; esac
dir=$(realpath "$1")
turns=${2:-21}
cd "$(dirname "$0")/.."
work=$(mktemp -d)
trap 'rm -rf "$work"' EXIT
python=${PYTHON:-/usr/bin/python3}
ruby=${RUBY:-ruby}
crates=$(realpath "${CLIENT_CRATES:-/usr/share/cargo/registry}")
export PYTHONDONTWRITEBYTECODE=1 POKHVIZI_LIBRARY="$dir/libpokhvizi.so" POKHVIZI_DIR="$dir"
export CARGO_TARGET_DIR="$work/target" CARGO_HOME="$work/cargo" RUSTFLAGS="--cap-lints allow"

for size in 35000 350000; do
    while [ "$(cat "$work/$size.yaml" 2> /dev/null | wc -c)" -lt $size ]; do
        { echo ---; cat examples/compose.yaml; } >> "$work/$size.yaml"
    done
done
mv "$work/350000.yaml" "$work/text.yaml"

# The runner of unsafe-libyaml's tests over the YAML test suite, which prints all events.
mkdir -p "$CARGO_HOME"
printf '[source.crates-io]\nreplace-with = "debian"\n[source.debian]\ndirectory = "%s"\n[net]\noffline = true\n' "$crates" \
    > "$CARGO_HOME/config.toml"
cp -R bindings/rust "$work/unsafe_libyaml"
rm -rf "$work/unsafe_libyaml/original"
ln -s "$crates/unsafe-libyaml-0.2.11" "$work/unsafe_libyaml/original"
sh scripts/parts/rust_manifest.sh original "$PWD" > "$work/unsafe_libyaml/Cargo.toml"
for how in plain proved; do
    mkdir -p "$work/$how"
    cp -R "$crates/unsafe-libyaml-0.2.11/src/bin" "$work/$how/src"
    {
        printf '[package]\nname = "runner_%s"\nversion = "0.0.0"\nedition = "2021"\n[[bin]]\nname = "runner_%s"\n' $how $how
        printf 'path = "src/run-parser-test-suite.rs"\n[workspace]\n[dependencies]\nunsafe-libyaml = "0.2"\n'
        [ $how = plain ] || printf '[patch.crates-io]\nunsafe-libyaml = { path = "%s" }\n' "$work/unsafe_libyaml"
    } > "$work/$how/Cargo.toml"
    (cd "$work/$how" && cargo build -q --release)
    "$CARGO_TARGET_DIR/release/runner_$how" "$work/text.yaml" > "$work/$how.events"
done
cmp "$work/plain.events" "$work/proved.events"
runner=$CARGO_TARGET_DIR/release/runner
: > "$work/none"
"$python" bench/paired.py "$turns" "\`unsafe-libyaml\`'s runner | 350 KB" "${runner}_proved {}" "${runner}_plain {}" \
    "$work/text.yaml" "$work/text.yaml" "$work/none"

sh bindings/c/build_libyaml.sh "$dir"
proved="LD_LIBRARY_PATH=$dir/libyaml"
cc -O2 -o "$work/events" scripts/doors/clients/events.c -lyaml -ldl
"$python" bench/paired.py "$turns" "a program in C that parses by libyaml | 350 KB" "$proved $work/events memory < {}" \
    "$work/events memory < {}" "$work/text.yaml" "$work/text.yaml" "$work/none"
find / -xdev \( -path /proc -o -path /tmp -o -path /sys \) -prune -o -type f \( -name '*.yaml' -o -name '*.yml' \) \
    -size -1000k -print 2> /dev/null | sort | head -n "${SAMPLE:-2000}" > "$work/files"
cat > "$work/psych.rb" << 'RUBY'
require "psych"
File.foreach(ARGV[0], chomp: true) do |name|
  Psych.parse_stream(File.binread(name))
rescue Psych::SyntaxError
end
RUBY
head -n 400 "$work/files" > "$work/some_files"
echo "$work/text.yaml" > "$work/text_once"
for again in 1 2 3 4 5 6 7 8 9 10; do
    echo "$work/text.yaml"
done > "$work/text_again"
psych="$ruby $work/psych.rb {}"
"$python" bench/paired.py "$turns" "Ruby's psych | $(wc -l < "$work/files") YAML files of a machine" "$proved $psych" "$psych" \
    "$work/files" "$work/some_files" "$work/none"
"$python" bench/paired.py "$turns" "the same | 350 KB, ten times" "$proved $psych" "$psych" \
    "$work/text_again" "$work/text_once" "$work/none"

cat > "$work/load.py" << 'PYTHON'
import sys
import yaml
from pokhvizi import SafeLoader
with open(sys.argv[2]) as text:
    count = sum(1 for _ in yaml.load_all(text, Loader=SafeLoader if sys.argv[1] == "proved" else yaml.SafeLoader))
    assert count >= text.tell() // 600
PYTHON
cp -R bindings/python/src/pokhvizi "$work"
"$python" bench/paired.py "$(((turns + 2) / 3))" "PyYAML's loader in Python, \`pokhvizi.SafeLoader\` | 350 KB" \
    "$python $work/load.py proved {}" "$python $work/load.py plain {}" "$work/text.yaml" "$work/35000.yaml" "$work/none"

PYTHON_INCLUDE=${PYTHON_INCLUDE:-$("$python" -c 'import sysconfig; print(sysconfig.get_path("include"))')} \
    sh bindings/python/build_extension.sh "$dir"
cp "$dir/_yaml.abi3.so" "$work/pokhvizi"
cat > "$work/load_c.py" << 'PYTHON'
import sys
import yaml
import pokhvizi
loader = {"proved": pokhvizi.CSafeLoader, "plain": yaml.CSafeLoader}[sys.argv[1]]
with open(sys.argv[3]) as file:
    text = file.read()
acts = {
    "documents": lambda: list(yaml.load_all(text, Loader=loader)),
    "loaders": lambda: [yaml.load(document, Loader=loader) for document in text.split("---\n")],
    "list": lambda: yaml.load(text, Loader=loader),
    "nodes": lambda: yaml.compose(text, Loader=loader).value,
}
for _ in range(int(sys.argv[4])):
    assert len(acts[sys.argv[2]]()) >= 600
PYTHON
for number in $(seq 600); do
    echo "- # $number"
    sed "/^#/d; s/logging/logging$number/g; s/^/  /" examples/compose.yaml
done > "$work/list.yaml"
for what in documents loaders list nodes; do
    case $what in list | nodes) text=$work/list.yaml ;; *) text=$work/text.yaml ;; esac
    "$python" bench/paired.py "$(((turns + 2) / 3))" "PyYAML's C loader | $what, ten times" "$python $work/load_c.py proved $what {}" \
        "$python $work/load_c.py plain $what {}" "$text 10" "$text 2" "$text 1"
done
