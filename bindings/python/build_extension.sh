#!/bin/sh
# Builds the extension of the Python package, DIR/_yaml.abi3.so, over DIR/libpokhvizi.a, which scripts/build_c.sh or
# build_plain.sh made there:
#
#     sh bindings/python/build_extension.sh DIR
#
# Needs gcc, binutils, libyaml.a with its header (Debian's libyaml-dev) and Python's headers, of 3.8 or later: those that
# PYTHON_INCLUDE names, or of python3. It serves each Python from 3.8 on; libyaml is part of it, unless LIBYAML has other words for
# the linker, such as -lyaml.
set -eu
usage='usage: sh bindings/python/build_extension.sh DIR, where build_c.sh or build_plain.sh made DIR'
case ${1-} in '' | -*) echo "$usage" >&2; exit 2 ;; esac
[ $# -eq 1 ] && [ -f "$1/libpokhvizi.a" ] || { echo "$usage" >&2; exit 2; }
dir=$(cd "$1" && pwd)
cd "$(dirname "$0")/../.."
python=${PYTHON_INCLUDE:-$(python3 -c 'import sysconfig; print(sysconfig.get_path("include"))')}
cc=${CC:-gcc}
echo '{ global: PyInit__yaml; local: *; };' > "$dir/_yaml.map"
set --
for source in bindings/python/src/_yaml/*.c; do
    object=$dir/_yaml_$(basename "$source" .c).o
    "$cc" -std=gnu11 -O2 -Wall -Wextra -Werror -fPIC -fvisibility=hidden -I"$python" -Ibindings/c -Ibindings/c/include -c -o "$object" "$source"
    set -- "$@" "$object"
done
"$cc" -shared -Wl,--version-script,"$dir/_yaml.map" -Wl,-z,relro,-z,now,-z,noexecstack -Wl,--gc-sections -Wl,--build-id=sha1 \
    -o "$dir/_yaml.abi3.so" "$@" "$dir/libpokhvizi.a" ${LIBYAML:--Wl,-Bstatic -lyaml -Wl,-Bdynamic}
"${STRIP:-strip}" --strip-unneeded "$dir/_yaml.abi3.so"
made=$("${NM:-nm}" -D --defined-only "$dir/_yaml.abi3.so" | awk 'NF == 3 && $2 != "A" { print $3 }')
[ "$made" = PyInit__yaml ] || { printf 'other names are exported:\n%s\n' "$made" >&2; exit 1; }
