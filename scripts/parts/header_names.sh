#!/bin/sh
# Writes the names of the functions that these headers of bindings/c/include/pokhvizi declare, sorted; those
# that they define themselves are left out:
#
#     sh scripts/parts/header_names.sh steps compose
#
# Run by build_c.sh, build_plain.sh and link_c.sh.
set -eu
cd "$(dirname "$0")/../../bindings/c/include/pokhvizi"
for header; do
    sed -n '/^static /d; s/^[a-z].*\b\(pokhvizi_[a-z_]*\)(.*/\1/p' "$header.h"
done | sort -u
