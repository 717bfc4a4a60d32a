#!/bin/sh
# Links objects of C's calls into DIR/libpokhvizi.a and DIR/libpokhvizi.so, whose only names are those of the
# headers, and for this machine examples/yaml.c over them:
#
#     sh scripts/parts/link_c.sh DIR TOOLS OBJECT..
#
# TOOLS is what the names of binutils begin with, such as aarch64-linux-gnu-, or empty for this machine's. The
# objects stand in DIR. CC is the compiler; CFLAGS are taken for yaml.
#
# Run by build_c.sh and build_plain.sh.
set -eu
[ $# -ge 3 ] || { echo "usage: sh scripts/parts/link_c.sh DIR TOOLS OBJECT.." >&2; exit 2; }
dir=$1 tools=$2
shift 2
cd "$(dirname "$0")/../.."
top=$PWD
cc=${CC:-${tools:+${tools}g}cc}
abi=$(cat bindings/c/ABI_VERSION)
names=$(sh scripts/parts/header_names.sh steps compose)

cd "$dir"
rm -f libpokhvizi.a libpokhvizi.so*
"${tools}ar" rcsD libpokhvizi.a "$@"
{ echo "POKHVIZI_$abi {"; echo "global:"; printf '%s;\n' $names; echo "local: *; };"; } > pokhvizi.map
"$cc" -shared -nostartfiles -Wl,-soname,"libpokhvizi.so.$abi" -Wl,--version-script,pokhvizi.map -Wl,-z,relro,-z,now,-z,noexecstack \
    -Wl,--gc-sections -Wl,--build-id=sha1 -Wl,-z,defs -o "libpokhvizi.so.$abi" "$@"
"${tools}strip" --strip-unneeded "libpokhvizi.so.$abi"
ln -s "libpokhvizi.so.$abi" libpokhvizi.so
shared=$("${tools}nm" -D --defined-only libpokhvizi.so | awk 'NF == 3 && $2 == "T" { sub(/@.*/, "", $3); print $3 }' | sort)
[ "$shared" = "$names" ] || { printf 'other names are exported:\n%s\n' "$shared" >&2; exit 1; }

cd "$top"
[ -n "$tools" ] || "$cc" ${CFLAGS:--O2 -Wall -Wextra} -Ibindings/c/include examples/yaml.c "$dir/libpokhvizi.a" -lyaml -o "$dir/yaml"
