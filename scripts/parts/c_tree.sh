#!/bin/sh
# Lays out what a user of the libraries for C installs, in TREE, with the Makefile that installs it (install.mk):
#
#     sh scripts/parts/c_tree.sh BUILT TREE
#
# BUILT has what build_c.sh or build_plain.sh made there, and what build_libyaml.sh did, or not: then the tree lacks libyaml.
#
# Run by release.sh and by bindings/c/Makefile.
set -eu
[ $# -eq 2 ] && [ -f "$1/libpokhvizi.a" ] || { echo "usage: sh scripts/parts/c_tree.sh BUILT TREE, where build_c.sh or build_plain.sh made BUILT" >&2; exit 2; }
built=$(cd "$1" && pwd)
mkdir -p "$2"
tree=$(cd "$2" && pwd)
cd "$(dirname "$0")/../.."
version=$(cat VERSION)
abi=$(cat bindings/c/ABI_VERSION)
doc=$tree/share/doc/pokhvizi

mkdir -p "$tree/bin" "$tree/include" "$tree/lib/pkgconfig" "$tree/lib/pokhvizi" "$doc/examples"
cp -R bindings/c/include/pokhvizi "$tree/include"
cp "$built/libpokhvizi.a" "$tree/lib"
cp "$built/libpokhvizi.so.$abi" "$tree/lib/libpokhvizi.so.$version"
ln -sf "libpokhvizi.so.$version" "$tree/lib/libpokhvizi.so.$abi"
ln -sf "libpokhvizi.so.$abi" "$tree/lib/libpokhvizi.so"
sed "s/@VERSION@/$version/" bindings/c/pokhvizi.pc.in > "$tree/lib/pkgconfig/pokhvizi.pc"
cp bindings/c/install.mk "$tree/Makefile"
if [ -e "$built/libyaml" ]; then
    install -m 755 bindings/c/proved-libyaml "$tree/bin"
    mkdir "$tree/lib/pokhvizi/include" "$tree/lib/pokhvizi/pkgconfig"
    cp -P "$built"/libyaml/libyaml* "$tree/lib/pokhvizi"
    cp "$built/libyaml/yaml.h" "$tree/lib/pokhvizi/include"
    cp "$built/libyaml/yaml-0.1.pc" "$tree/lib/pokhvizi/pkgconfig"
    cp bindings/python/LICENSE.libyaml "$doc"
else
    rm -r "$tree/bin" "$tree/lib/pokhvizi"
    sed -i -e '/^# libyaml/,/^#.*ldconfig/d' -e '/^install-libyaml/,/^\.PHONY/d' -e '/^\tcp -R lib/d' -e '/^\t\(sed\|chmod\).*proved-libyaml/d' \
        -e "s# '[^']*/proved-libyaml'##" "$tree/Makefile"
fi
cp bindings/c/README.md "$tree"
cp LICENSE CHANGELOG.md docs/PROVED.md docs/laws.txt docs/DEFINITIONS.md docs/DIFFERENCES.md docs/BOUNDS.md docs/HEADLINE.md bindings/c/README.md "$doc"
cp examples/events.c examples/compose.c examples/yaml.c examples/list.yaml "$doc/examples"
