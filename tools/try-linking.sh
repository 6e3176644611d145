#!/bin/sh
# try-linking.sh: takes every block of docs/LINKING.md out of the page, runs each one's commands in target/linking, and
# wants of each program what case I gives (work 10, span 9) and the statuses that the page promises.
set -eu
cd "$(dirname "$0")/.."
. tools/usage.sh
numbers tools/try-linking.sh 0 "$@"
[ -n "${NYO_LIB_DIR:-}" ] || tools/native-lib.sh
out=target/linking
rm -rf "$out" && mkdir -p "$out/target"
ln -s "$PWD/include" "$PWD/examples" "$PWD/c" "$out/"
ln -s "$(realpath "${NYO_LIB_DIR:-target/native}")" "$out/target/native"
awk -v out="$out" '
    !/^```/ { if (file) print > file; next }
    file { file = ""; next }
    !match($0, / file=/) { print "docs/LINKING.md:" NR ": a block without a file name, which nothing would run"; exit 1 }
    { file = out "/" substr($0, RSTART + 6) }' docs/LINKING.md
cd "$out"

# tried STATUS SAID COMMAND: the command ends with this status, and says this on one of its outputs.
passed=0
tried() {
    status=0
    sh -eu -c "$3" >said 2>&1 || status=$?
    if [ "$status" != "$1" ] || ! grep -q "$2" said; then
        echo "$3: wanted status $1 and '$2'; came status $status and: $(cat said)"
        exit 1
    fi
    passed=$((passed + 1))
}

for commands in *.sh; do
    compiler=$(sed '1s/ .*//; q' "$commands")
    if ! command -v "$compiler" >/dev/null; then
        echo "$commands: SKIPPED, no $compiler here"
        continue
    fi
    tried 0 '^work 10, span 9' "sh -eu $commands"
    program=$(sed -n '$s, examples/case-i.trace$,,p' "$commands")
    tried 0 '^work 10, span 9' "$program examples/case-i.trace"
    tried 1 'refusal 14, line 4' "$program examples/refusal-14.trace"
    tried 2 '^usage: ' "$program examples/case-i.trace examples/case-i.trace"
    tried 3 no-such-file "$program no-such-file"
    tried 3 examples "$program examples"
    tried 3 . "$program examples/case-i.trace >/dev/full"
    echo "$commands: $program does what the page says"
done
echo "$passed passed, 0 failed"
