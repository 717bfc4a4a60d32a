#!/bin/sh
# Builds libyaml with the proved parser and loader in the place of its own, over DIR/libpokhvizi.a, which scripts/build_c.sh or
# build_plain.sh made there:
#
#     sh bindings/c/build_libyaml.sh DIR
#
#     DIR/libyaml/libyaml-0.so.2.0.9     the shared library, with its links libyaml-0.so.2 and libyaml.so
#     DIR/libyaml/libyaml.a              the static one
#     DIR/libyaml/yaml.h, yaml-0.1.pc    libyaml's header, and what pkg-config says of these
#
# The objects are those of libyaml's own static library, the one that LIBYAML_A names or that the compiler finds (Debian's libyaml-dev),
# but for the two that define yaml_parser_parse and yaml_parser_load. Where there is none, the shared library is made over a copy of
# libyaml's, DIR/libyaml/libyaml-s.so.2, which is installed beside it, and there is no static one. The names that are exported are
# libyaml's, and pokhvizi_libyaml_version and pokhvizi_libyaml_name.
#
# Needs gcc, binutils and libyaml's header. CC names the compiler, and TOOLS what the names of binutils begin with, such as
# aarch64-linux-gnu-; CPPFLAGS, CFLAGS and LDFLAGS are taken.
set -eu
usage='usage: sh bindings/c/build_libyaml.sh DIR, where build_c.sh or build_plain.sh made DIR'
case ${1-} in '' | -*) echo "$usage" >&2; exit 2 ;; esac
[ $# -eq 1 ] && [ -f "$1/libpokhvizi.a" ] || { echo "$usage" >&2; exit 2; }
dir=$(cd "$1" && pwd)
cd "$(dirname "$0")/../.."
tools=${TOOLS-}
cc=${CC:-${tools}gcc}
own='pokhvizi_libyaml_name pokhvizi_libyaml_version'
replaced='yaml_parser_load yaml_parser_parse'

stop() {
    echo "build_libyaml.sh: $*" >&2
    exit 1
}

# names WORD.. FILE: the global names that a file defines.
names() {
    "${tools}nm" "$@" | awk 'NF == 3 && $2 ~ /^[TWDBRVi]$/ { sub(/@.*/, "", $3); print $3 }' | sort
}

# A library that the compiler finds, by its file's name, or nothing.
found() {
    file=$("$cc" -print-file-name="$1")
    [ ! -f "$file" ] || readlink -f "$file"
}

archive=${LIBYAML_A-$(found libyaml.a)}
theirs=$(found libyaml.so)
header=$(echo '#include <yaml.h>' | "$cc" ${CPPFLAGS-} -E - | sed -n 's/^# [0-9]* "\(.*yaml\.h\)".*/\1/p' | head -n 1)
[ -n "$header" ] || stop "there is no yaml.h"
[ -n "$archive$theirs" ] || stop "there is no libyaml.a, and no libyaml.so"
made=$dir/libyaml
rm -rf "$made"
mkdir -p "$made/objects"

# One object, with no names but these.
"$cc" -std=gnu11 -O2 ${CPPFLAGS-} ${CFLAGS-} -Wall -Wextra -Werror -pedantic -fPIC -fno-plt -fno-lto -fvisibility=hidden -Ibindings/c/include \
    -ffile-prefix-map="$PWD=." -c -o "$made/glue.o" bindings/c/libyaml_proved.c
"${tools}ld" -r -o "$made/objects/proved.o" "$made/glue.o" --whole-archive "$dir/libpokhvizi.a"
rm "$made/glue.o"
"${tools}objcopy" --strip-debug $(printf ' --keep-global-symbol=%s' $replaced $own) "$made/objects/proved.o"

file=libyaml-0.so.2.0.9
[ -z "$theirs" ] || file=${theirs##*/}
soname=$(echo "$file" | sed 's/\(\.so\.[0-9]*\).*/\1/')
if [ -n "$archive" ]; then
    (cd "$made/objects" && "${tools}ar" x "$archive")
    for object in "$made"/objects/*; do
        case $object in */proved.o) continue ;; esac
        ! names "$object" | grep -q -x -e yaml_parser_load -e yaml_parser_parse || rm "$object"
    done
    "${tools}ar" rcsD "$made/libyaml.a" "$made"/objects/*
    [ "$(names -g "$made/libyaml.a" | uniq -d)" = '' ] || stop "$archive: a name is there twice"
    over=
else
    # The name of libyaml's own is turned in its copy, for one of the same length.
    LC_ALL=C sed 's/libyaml-0\.so\.2/libyaml-s.so.2/g' "$theirs" > "$made/libyaml-s.so.2"
    "${tools}readelf" -d "$made/libyaml-s.so.2" | grep -q 'SONAME.*\[libyaml-s\.so\.2\]' || stop "$theirs has another name"
    chmod 755 "$made/libyaml-s.so.2"
    over="-Wl,-rpath,\$ORIGIN $made/libyaml-s.so.2"
fi
# A call from within it stays within it: the parser is this one, whatever a program has by libyaml's names.
"$cc" -shared -Wl,-soname,"$soname" -Wl,-Bsymbolic-functions -Wl,-z,relro,-z,now,-z,noexecstack,-z,defs -Wl,--build-id=sha1 ${LDFLAGS-} \
    -o "$made/$file" "$made"/objects/* $over
"${tools}strip" --strip-unneeded "$made/$file"
ln -s "$file" "$made/$soname"
ln -s "$file" "$made/libyaml.so"
rm -r "$made/objects"

# The names are libyaml's, and two more.
if [ -n "$theirs" ]; then
    wanted=$({ names -D "$theirs"; printf '%s\n' $own; } | sort)
    [ -n "$archive" ] || wanted=$(printf '%s\n' $own $replaced | sort)
    [ "$(names -D "$made/$file")" = "$wanted" ] || stop "$file exports other names than $theirs: $(names -D "$made/$file" | tr '\n' ' ')"
fi
version=$(sed -n 's/^Version: *//p' "$(dirname "${theirs:-$archive}")/pkgconfig/yaml-0.1.pc" 2> /dev/null || :)
cp "$header" "$made/yaml.h"
cat > "$made/yaml-0.1.pc" << PC
libdir=\${pcfiledir}/..
includedir=\${libdir}/include

Name: LibYAML
Description: Library to parse and emit YAML, whose parser and loader are proved (Pokhvizi $(cat VERSION))
Version: ${version:-0.2.5}
Cflags: -I\${includedir}
Libs: -L\${libdir} -lyaml
PC
