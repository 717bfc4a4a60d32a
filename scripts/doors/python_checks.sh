#!/bin/sh
# Tries examples/yaml_lines.py in every way that it may be refused, and says what it saw:
#
#     sh scripts/doors/python_checks.sh [PROGRAM]
#
# PROGRAM is yamltokens. Each case has one line on standard error and its status. The exit status is 0 if all are as they should be. Needs
# python3 with PyYAML, and GNU's timeout and truncate.
#
# Run by check_programs.sh.
set -u
cd "$(dirname "$0")/../.." || exit 2
program=$(realpath "${1:-crates/yamltokens/out/yamltokens}") && [ -x "$program" ] || { echo "no program" >&2; exit 2; }
examples=$PWD/examples
export front="$examples/yaml_lines.py" program
work=$(mktemp -d) || exit 2
trap 'rm -rf "$work"' EXIT
cd "$work" || exit 2
runs=0
wrong=0

complain() {
    echo "wrong: $*"
    wrong=$((wrong + 1))
}

# Runs a command of the shell: its status, and the one line of its messages, or none where the pattern is empty.
expect() {
    timeout 300 sh -c "$3" > out 2> err
    got=$?
    runs=$((runs + 1))
    [ "$got" = "$1" ] || complain "$3: status $got, not $1"
    [ "$(wc -l < err)" = "$([ -z "$2" ] && echo 0 || echo 1)" ] || complain "$3: $(wc -l < err) lines of messages"
    case $(cat err) in
    $2) ;;
    *) complain "$3 says: $(cat err)" ;;
    esac
}

# Whether the output of the last command begins with this line.
begins() {
    [ "$(head -n 1 out)" = "$1" ] || complain "the first line is $(head -n 1 out)"
}

same() {
    cmp -s out "$1" || complain "the output is not $1"
}

# ---- What it reads ----

printf 'a: b\n' > ok.yaml
printf 'a: b: c\n' > broken.yaml
printf '[a, b}\n' > parser.yaml
printf -- '- *a\n' > composer.yaml
printf 'a\n...\nb\n' > bare.yaml
printf '\377\376a\000\n\000' > le.yaml
printf '\376\377\000a\000\n' > be.yaml
printf '\357\273\277a\n' > mark.yaml
printf '"\\ud800"\n' > surrogate.yaml
printf '"\\UFFFFFFFF"\n' > beyond.yaml
printf '%%YAML 1.%05000d\n--- a\n' 9 > version.yaml
printf -- '- "\\ud800"\n\n\n- b\n' > earlier.yaml
printf '%%YAML 2147483648.0\n--- a\n' > larger.yaml
yes -- '- some words' | head -n 200000 > long.yaml
truncate -s 1G huge.yaml
cp ok.yaml locked.yaml && chmod 0 locked.yaml
ln -s "$front" linked.py
printf '#!/bin/sh\ncat > /dev/null\necho FAULT memory 0:0:0 -\nexit 1\n' > refusing
printf '#!/bin/sh\nexit 9\n' > failing
printf '#!/bin/sh\ncat > /dev/null\n' > silent
printf '#!/bin/sh\ncat > /dev/null\necho FAULT reader 5:5:0 too many tokens\nexit 1\n' > limited
printf '#!/bin/sh\nkill -9 $$\n' > killed
chmod +x refusing failing killed silent limited
printf '...\n' > empty.yaml
head -c 1100000 /dev/zero | tr '\0' a > wide.yaml
mkdir pure other && cp "$(python3 -c 'import yaml; print(yaml.__path__[0])')"/*.py other && mv other pure/yaml
echo 'import sys, runpy; sys.version_info = (3, 7, 9, "final", 0); sys.argv = sys.argv[1:]
runpy.run_path(sys.argv[0], run_name="__main__")' > older.py

# ---- What it writes ----

for mode in events nodes; do
    for name in list compose; do
        [ -f "$examples/$name.$mode" ] || continue
        expect 0 '' "python3 $front $mode $examples/$name.yaml --program $program"
        same "$examples/$name.$mode"
    done
done
for name in list compose; do
    expect 0 '' "python3 $front tokens - < $examples/$name.yaml"
    same "$examples/$name.tokens"
    expect 0 '' "PYTHONPATH=pure python3 $front tokens $examples/$name.yaml"
    same "$examples/$name.tokens"
done
expect 0 '' "PYTHONPATH=pure python3 $front nodes --program $program $examples/compose.yaml"
same "$examples/compose.nodes"
expect 0 '' "python3 linked.py tokens ok.yaml"
expect 0 '' "cd $examples && python3 yaml_lines.py tokens list.yaml"
expect 0 '' "python3 $front --help"
begins 'usage: yaml_lines.py tokens FILE'
for path in '' pure; do
    expect 0 '' "PYTHONPATH=$path python3 $front tokens le.yaml"
    begins 'STREAM-START 0:0:0 0:0:0 utf16le'
    expect 0 '' "PYTHONPATH=$path python3 $front tokens be.yaml"
    begins 'STREAM-START 0:0:0 0:0:0 utf16be'
    expect 0 '' "PYTHONPATH=$path python3 $front tokens mark.yaml"
    begins 'STREAM-START 0:0:0 0:0:0 utf8'
    grep -q '^SCALAR 0:0:0 1:0:1 =a plain$' out || complain "a byte order mark is counted"
done

# ---- Faults in the YAML: status 1 ----

not_allowed='yaml_lines.py: broken.yaml: line 1, column 5: mapping values are not allowed in this context (scanner)'
expect 1 "$not_allowed" "python3 $front tokens broken.yaml"
[ "$(tail -n 1 out)" = 'SCALAR 3:0:3 4:0:4 =b plain' ] || complain "a fault stands among tokens"
expect 1 "$not_allowed" "python3 $front events broken.yaml --program $program"
[ "$(tail -n 1 out)" = 'FAULT scanner 4:0:4 mapping values are not allowed in this context' ] || complain "$(tail -n 1 out)"
expect 1 'yaml_lines.py: standard input: line 1, column 5: *' "python3 $front nodes - --program $program < broken.yaml"
expect 1 'yaml_lines.py: parser.yaml: line 1, column 6: *(parser)' "python3 $front events parser.yaml --program $program"
expect 1 'yaml_lines.py: composer.yaml: line 1, column 3: *(composer)' "python3 $front nodes composer.yaml --program $program"
for mode in events nodes; do
    expect 0 '' "python3 $front $mode bare.yaml --program $program"
    expect 2 'yaml_lines.py: usage: *' "python3 $front strict-$mode bare.yaml --program $program"
done
for name in surrogate beyond version; do
    expect 1 "yaml_lines.py: $name.yaml: line *(scanner)" "python3 $front tokens $name.yaml"
    expect 1 "yaml_lines.py: $name.yaml: line *(scanner)" "PYTHONPATH=pure python3 $front tokens $name.yaml"
done
expect 1 'yaml_lines.py: earlier.yaml: line 1, column 3: *(scanner)' "PYTHONPATH=pure python3 $front tokens earlier.yaml"
expect 1 'yaml_lines.py: larger.yaml: line 1, column 19: found extremely long version number (scanner)' \
    "PYTHONPATH=pure python3 $front events larger.yaml --program $program"
expect 3 'yaml_lines.py: cannot run : *' "python3 $front events ok.yaml --program ''"

# ---- Beside PyYAML and pokhvizi: no file of the folder hides a module of theirs ----

expect 0 '' "PYTHONPATH=$examples:$examples/../bindings/python/src python3 -B -c 'import yaml; from pokhvizi import SafeLoader; yaml.SafeLoader'"

# ---- Wrong words: status 2 ----

usage='yaml_lines.py: usage: yaml_lines.py tokens|events|nodes FILE *'
for words in '' tokens 'tokens a b' 'words ok.yaml' '--wrong' 'events ok.yaml --program' 'tokens ok.yaml --program x' \
    '-x ok.yaml'; do
    expect 2 "$usage" "python3 $front $words"
done

# ---- Anything else: status 3 ----

expect 3 'yaml_lines.py: nosuch.yaml: No such file or directory' "python3 $front events nosuch.yaml"
expect 3 'yaml_lines.py: /: Is a directory' "python3 $front tokens /"
if [ "$(id -u)" != 0 ]; then
    expect 3 'yaml_lines.py: locked.yaml: Permission denied' "python3 $front tokens locked.yaml"
fi
expect 3 'yaml_lines.py: standard input: Bad file descriptor' "python3 $front tokens - <&-"
for mode in tokens "events --program $program" "nodes --program $program"; do
    expect 3 'yaml_lines.py: output failed: No space left on device' "python3 $front $mode ok.yaml > /dev/full"
    expect 3 'yaml_lines.py: output failed: Bad file descriptor' "python3 $front $mode ok.yaml >&-"
    expect 3 'yaml_lines.py: output failed: Broken pipe' \
        "{ python3 $front $mode long.yaml; echo \$? > status; } | head -n 1; exit \$(cat status)"
done
expect 3 'yaml_lines.py: output failed: No space left on device' "python3 $front --help > /dev/full"
expect 3 '' "python3 $front tokens nosuch.yaml 2>&-"
expect 3 '' "python3 $front tokens nosuch.yaml 2> /dev/full"
expect 3 'yaml_lines.py: needs PyYAML (Debian: python3-yaml): *' "python3 -S -E -s $front tokens ok.yaml"
expect 3 'yaml_lines.py: needs Python 3.8 or later, and this is 3.7' "python3 older.py $front tokens ok.yaml"
expect 3 'yaml_lines.py: out of memory' "ulimit -v 400000; python3 $front tokens huge.yaml"
expect 3 'yaml_lines.py: out of memory' "python3 $front events --program ./refusing ok.yaml"
expect 3 'yaml_lines.py: ./failing failed, with status 9' "python3 $front events --program ./failing ok.yaml"
for mode in events nodes; do
    expect 3 "yaml_lines.py: ./silent ended without writing its $mode" "python3 $front $mode --program ./silent ok.yaml"
    expect 3 'yaml_lines.py: ok.yaml: too many tokens, after 5 tokens: a limit *' "python3 $front $mode --program ./limited ok.yaml"
    expect 3 'yaml_lines.py: wide.yaml: line too long, after 1 token: a limit *' "python3 $front $mode --program $program wide.yaml"
    [ "$(tail -n 1 out)" = 'FAULT reader 1:1:0 line too long' ] || complain "$(tail -n 1 out)"
done
expect 0 '' "python3 $front nodes --program ./silent empty.yaml"
expect 3 'yaml_lines.py: ./killed failed, with status -9' "python3 $front events --program ./killed ok.yaml"
expect 3 'yaml_lines.py: cannot run ./nosuch: No such file or directory' "python3 $front events --program ./nosuch ok.yaml"
mkdir alone && cp "$front" alone
expect 3 'yaml_lines.py: cannot run yamltokens: No such file or directory; to build it: (cd crates/yamltokens && rt run*' \
    "PATH=$work $(python3 -c 'import sys; print(sys.executable)') alone/yaml_lines.py events ok.yaml"
expect 3 'yaml_lines.py: cannot run /: Permission denied' "python3 $front nodes --program / ok.yaml"

# A Python that is too old has to read the file to its end before it can say so.
python3 -c 'import ast, sys; ast.parse(open(sys.argv[1]).read(), feature_version=(3, 4))' "$front" || complain "new syntax"
for old in python2.7 python3.4 python3.5 python3.6 python3.7; do
    "$old" -c '' 2> err || continue
    expect 3 'yaml_lines.py: needs Python 3.8 or later, and this is ?.?' "$old $front tokens ok.yaml"
done

# ---- Interrupted: status 130 ----

# It is interrupted once it has taken the first byte of its input, and so reads.
echo 'import array, fcntl, signal, subprocess, sys, termios, time
run, left = subprocess.Popen(sys.argv[1:], stdin=subprocess.PIPE, bufsize=0), array.array("i", [1])
run.stdin.write(b"a")
while left[0] and run.poll() is None:
    time.sleep(0.05)
    fcntl.ioctl(run.stdin, termios.FIONREAD, left)
run.send_signal(signal.SIGINT)
sys.exit(run.wait())' > interrupt.py
expect 130 'yaml_lines.py: interrupted' "python3 interrupt.py python3 $front tokens -"

echo "$runs cases, $wrong wrong"
[ "$wrong" = 0 ]
