#!/bin/sh
# Compares yamltokens with libyaml's own parser and loader, for events and for nodes, over token lists drawn at random:
#
#     sh scripts/differential/run.sh [COUNT [SEED]]
#
# COUNT is 10000 if none is named, SEED 1. From the environment: PROGRAM, a built yamltokens, is
# crates/yamltokens/out/yamltokens if none is named; JOBS is how many lists are compared side by side, as many as there
# are cores; WITHOUT is a rule of rules.h that is left out, so that lists differ. The status is 0 if no list
# differs, 1 if one does, 2 if a tool or the program lacks. Needs a C compiler, Debian's libyaml-dev and Python 3.8.
#
# Run by hand after the parser changed, and by check_programs.sh.
set -u
lacks() {
    echo "run.sh: $*" >&2
    exit 2
}

{ [ $# -le 2 ] && [ "${1:-1}" -gt 0 ] && [ "${2:-1}" -ge 0 ]; } 2> /dev/null ||
    lacks "usage: run.sh [COUNT [SEED]], where COUNT is at least 1"
here=$(cd "$(dirname "$0")" && pwd) || exit 2
program=$(realpath -e "${PROGRAM:-$here/../../crates/yamltokens/out/yamltokens}" 2> /dev/null) && [ -x "$program" ] ||
    lacks "no program ${PROGRAM:-crates/yamltokens/out/yamltokens}; (cd crates/yamltokens && rt run -- events) builds it"
command -v "${CC:-cc}" > /dev/null || lacks "no C compiler ${CC:-cc}"
python3 -c 'import sys; sys.exit(sys.version_info < (3, 8))' 2> /dev/null || lacks "no Python 3.8 or later"
work=$(mktemp -d) || exit 2
trap 'rm -rf "$work"' EXIT

# libyaml is linked as an archive, of which only those parts are taken that are asked for: no scanner.
"${CC:-cc}" -std=gnu11 -O2 -Wall -Wextra -DBY_RULES "$here/libyaml_lines.c" -Wl,--wrap=yaml_parser_parse -Wl,-Bstatic -lyaml -Wl,-Bdynamic \
    -o "$work/libyaml_lines" || lacks "libyaml_lines is not built; it needs Debian's libyaml-dev"

export PYTHONDONTWRITEBYTECODE=1
python3 "$here/compare.py" "'$program'" "'$work/libyaml_lines'${WITHOUT:+ --without $WITHOUT}" \
    "${1:-10000}" "${2:-1}" "${JOBS:-$(nproc)}"
