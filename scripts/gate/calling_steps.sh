#!/bin/sh
# Follows the steps that docs/CALLING.md shows for a project of one's own, in order, in a new folder, without any proof
# (`rt try`). The programs have to print what the page says, and then `vendor.sh` has nothing to update.
#
#     sh scripts/gate/calling_steps.sh
#
# Run by check_programs.sh.
set -u
[ $# = 0 ] || { echo "usage: sh scripts/gate/calling_steps.sh" >&2; exit 2; }
cd "$(dirname "$0")/../.." || exit 2
work=$(mktemp -d) || exit 2
trap 'rm -rf "$work"' EXIT
page=docs/CALLING.md
wrong=0

# The blocks of commands that name the project, as files step1, step2 ..
awk -v work="$work" '
    /^```sh$/ { block = ""; inside = 1; next }
    /^```$/ { if (inside && block ~ /\.\.\/my_project/) { printf "%s", block > (work "/step" ++n) }; inside = 0 }
    inside { block = block $0 "\n" }
' $page
# What they print, in the same order: the block after a line "It .. prints .. :", or the word after "prints".
awk -v work="$work" '
    /^It (.*)?prints.*:$/ { waits = 1; ++n; next }
    /^```/ { if (waits && !inside) { inside = 1 } else if (inside) { inside = waits = 0 }; next }
    inside { print > (work "/wanted" n) }
    /^prints `/ { split($0, part, "`"); print part[2] > (work "/wanted" ++n) }
' $page

number=0
while [ -e "$work/step$((number + 1))" ]; do
    number=$((number + 1))
    step=$work/step$number
    [ -s "$work/wanted$number" ] || { echo "$page doesn't say what step $number prints"; exit 1; }
    sed "s|\.\./my_project|$work/my_project|g" "$step" > "$step.sh"
    sh -eu "$step.sh" < /dev/null > "$work/said" 2> "$work/err" || { cat "$work/said" "$work/err"; echo "step $number fails"; exit 1; }
    if ! tail -n "$(wc -l < "$work/wanted$number")" "$work/said" | cmp -s - "$work/wanted$number"; then
        cat "$work/said"
        echo "step $number prints something else than the page says"
        wrong=$((wrong + 1))
    fi
done
[ "$number" -gt 0 ] || { echo "$page has no step"; exit 1; }
sh scripts/vendor.sh "$work/my_project" > "$work/said" 2>&1 && ! grep -v ': as it was$' "$work/said" ||
    { cat "$work/said"; echo "vendor.sh does not leave the project as it was"; wrong=$((wrong + 1)); }
echo "$number steps, $wrong wrong"
[ "$wrong" = 0 ]
