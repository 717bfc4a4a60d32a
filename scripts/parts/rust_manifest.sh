#!/bin/sh
# Writes the Cargo.toml of bindings/rust for a copy of that folder, which takes the original crate,
# unsafe-libyaml 0.2.11, and the crate `pokhvizi` from folders, and so needs no network:
#
#     sh scripts/parts/rust_manifest.sh ORIGINAL PLAIN
#
# Run by release.sh, doors/clients.sh and bench/clients.sh.
set -eu
[ $# -eq 2 ] || { echo "usage: sh scripts/parts/rust_manifest.sh ORIGINAL PLAIN" >&2; exit 2; }
cd "$(dirname "$0")/../../bindings/rust"
made=$(sed -e '/^git = /d' -e "s#^path = \"../..\"#path = \"$2\"#" -e "s#^rev = .*#path = \"$1\"#" Cargo.toml)
echo "$made"
[ "$(echo "$made" | grep -c -x -e "path = \"$1\"" -e "path = \"$2\"")" -eq 2 ] && ! echo "$made" | grep -q '^rev' || {
    echo "rust_manifest.sh: bindings/rust/Cargo.toml has another form" >&2
    exit 1
}
