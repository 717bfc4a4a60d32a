# Debian trees that have neither the kit nor this repository, for scripts that are read by `.`:
#
#     trees=FOLDER; . scripts/parts/trees.sh
#
# tree NAME PACKAGE.. makes $trees/NAME of that release, if it isn't there, installs the packages, and empties its folder
# /srv/use; want WHAT WANTED WORDS runs the words of a shell there and counts in $right and $wrong. Needs root and debootstrap.
export DEBIAN_FRONTEND=noninteractive LC_ALL=C.UTF-8
wrong=0 skipped=0 right=0
trap 'for proc in "$trees"/*/proc; do ! mountpoint -q "$proc" || umount "$proc"; done' EXIT

# tree NAME PACKAGE..: a tree of that release with these packages, and nothing of this machine's. A name may have more words after
# the release, and $arch is its processor, if it isn't this machine's.
tree() {
    root=$trees/$1
    if [ ! -x "$root/bin/sh" ]; then
        debootstrap ${arch:+--arch="$arch"} --variant=minbase "${1%%-*}" "$root" > "$root.log" 2>&1 || { tail -n 5 "$root.log"; exit 1; }
    fi
    cp /etc/resolv.conf "$root/etc/resolv.conf"
    mountpoint -q "$root/proc" || mount -t proc proc "$root/proc"
    [ "${1%%-*}" != bookworm ] || grep -q security "$root/etc/apt/sources.list" ||
        echo 'deb http://deb.debian.org/debian-security bookworm-security main' >> "$root/etc/apt/sources.list"
    shift
    chroot "$root" sh -c 'apt-get -q update && apt-get -q -y --no-install-recommends install "$@"' sh "$@" > "$root.log" 2>&1 ||
        { tail -n 5 "$root.log"; exit 1; }
    rm -rf "$root/srv/use" "$root/usr/local/include/pokhvizi"
    mkdir -p "$root/srv/use"
    want 'no kit' '' 'command -v rt rattle; ls -d /opt/rattle 2> /dev/null; true'
}

# want WHAT WANTED WORDS: what the words of a shell print in the tree, with a path of the system's alone.
want() {
    said=$(chroot "$root" env -i PATH=/usr/local/bin:/usr/bin:/bin:/usr/sbin:/sbin LC_ALL=C.UTF-8 HOME=/srv sh -c "cd /srv/use && $3" 2>&1)
    if [ "$said" = "$2" ]; then
        right=$((right + 1))
        echo "as wanted: $1"
    else
        wrong=$((wrong + 1))
        echo "wrong: $1: $said"
    fi
}

# Takes crates from Debian's packages of the tree, whose folder CARGO_HOME is then /srv/use/home.
crates_of_tree() {
    mkdir -p "$root/srv/use/home"
    printf '[source.crates-io]\nreplace-with = "debian"\n[source.debian]\ndirectory = "/usr/share/cargo/registry"\n[net]\noffline = true\n' \
        > "$root/srv/use/home/config.toml"
}

# write_app NAME PATCH: a program over serde_yaml, in the folder of that name, with this line for the crate unsafe-libyaml. Write
# `features` first, a line for Cargo.toml or nothing. It prints two documents, of which the second follows `...`.
write_app() {
    mkdir -p "$root/srv/use/$1/src"
    printf '[package]\nname = "app"\nversion = "0.1.0"\nedition = "2021"\n[dependencies]\nserde = "1"\nserde_yaml = "0.9"\n%s\n[patch.crates-io]\n%s\n' \
        "$features" "$2" > "$root/srv/use/$1/Cargo.toml"
    cat > "$root/srv/use/$1/src/main.rs" << 'RUST'
use serde::Deserialize;

fn main() {
    for document in serde_yaml::Deserializer::from_str("a\n...\nb\n").take(2) {
        match serde_yaml::Value::deserialize(document) {
            Ok(value) => print!("{} ", value.as_str().unwrap()),
            Err(_) => print!("refused "),
        }
    }
}
RUST
}

# Writes parse.py and parse.rb, which count the events or print the documents of such a text by libyaml, or say that it is refused.
write_parses() {
    cat > "$root/srv/use/parse.py" << 'PYTHON'
import yaml
try:
    print(len(list(yaml.parse("a\n...\nb\n", yaml.CLoader))))
except yaml.parser.ParserError:
    print("refused")
PYTHON
    cat > "$root/srv/use/parse.rb" << 'RUBY'
require 'yaml'
begin
  p YAML.load_stream("a\n...\nb\n")
rescue Psych::SyntaxError
  puts 'refused'
end
RUBY
}
