#!/bin/sh
# run.sh: builds the archive, the C examples and the C test for this machine with the system's C compiler and runs them.
# What the examples print is held, whole and with their status, against the page of the examples. CC names another
# compiler.
set -eu
cd "$(dirname "$0")/.."
. tools/usage.sh
numbers c/run.sh 0 "$@"
cc=${CC:-cc} out=target/c lib=${NYO_LIB_DIR:-target/native}
[ -n "${NYO_LIB_DIR:-}" ] || tools/native-lib.sh
mkdir -p "$out"
for program in test profile sheet folded forecast compact why; do
    "$cc" -std=c99 -O2 -Wall -Wextra -Wpedantic -Werror -Iinclude "c/$program.c" "$lib/libnyolifuwe.a" -o "$out/$program"
done
echo '#include "nyolifuwe.h"' | "$cc" -std=c99 -Wall -Wextra -Wpedantic -Werror -Iinclude -fsyntax-only -x c -
if command -v c++ >/dev/null; then
    echo '#include "nyolifuwe.h"' | c++ -std=c++11 -Wall -Wextra -Wpedantic -Werror -Iinclude -fsyntax-only -x c++ -
else
    echo "no c++ here: the header was not tried as C++"
fi

# All that the archive wants of its caller's C library, as docs/LINKING.md says.
wants=$(nm -u "$lib/libnyolifuwe.a" | sed -n 's/^ *U //p' | sort -u | grep -vxE 'memcpy|memset' || :)
if [ -n "$wants" ]; then
    echo "the archive wants other functions than memcpy and memset: $wants"
    exit 1
fi

# shown NAME [PAGE]: what the page says of an example: the report below the trace's heading, or the refusal in the trace's
# row. Without PAGE it is the page of the examples.
shown() {
    awk -v name="\`$1\`" '/^## / { here = index($0, name) } /^```/ { inside = here && !inside; next } inside
        index($0, "| " name " |") == 1 { n = split($0, cell, "`"); print cell[n - 1] }' "${2:-examples/README.md}"
}

# tried STATUS SAID COMMAND: the command ends with this status, says so on standard error (nothing, where SAID is empty),
# and has printed, to the byte, what stands in the file `wanted`.
passed=0 profile=$out/profile wanted=$out/wanted
export profile
says() { if [ -n "$1" ]; then grep -q -- "$1" "$out/said"; else [ ! -s "$out/said" ]; fi; }
tried() {
    status=0
    sh -c "$3" </dev/null >"$out/printed" 2>"$out/said" || status=$?
    if [ "$status" != "$1" ] || ! cmp "$wanted" "$out/printed" || ! says "$2"; then
        echo "$3: wanted status $1, what $wanted holds, and '$2'"
        echo "came status $status, what $out/printed holds, and: $(cat "$out/said")"
        exit 1
    fi
    passed=$((passed + 1))
}

for trace in examples/*.trace; do
    shown "${trace#examples/}" >"$wanted"
    case $trace in
    */refusal-* | */treesum.trace) tried 1 '^profile: refusal [0-9]*, line [0-9]*: ' "\$profile $trace" ;;
    *) tried 0 '^work [0-9]*, span [0-9]*, ' "\$profile $trace" ;;
    esac
done
shown case-i.trace >"$wanted"
tried 0 '^work 10, span 9, 2 sites, 10 lines; on the chosen chain: 4 8$' '$profile <examples/case-i.trace'
tried 0 '^work 10, span 9' '$profile -d 64 -s 255 examples/case-i.trace'
shown on-the-way.trace >"$wanted"
tried 0 '^work 22, span 17, 4 sites, 21 lines; on the chosen chain: 0 3 5 8 10 19$' '$profile examples/on-the-way.trace'
shown instructions.trace >"$wanted"
tried 0 '^work 31, span 20, 2 sites, 23 lines; on the chosen chain: 2 4 7 10 21$' '$profile examples/instructions.trace'
shown proxy.trace | grep -v '^0008' >"$wanted"
tried 0 '^work 36140, span 11435, 8 sites' '$profile -i examples/proxy.trace'
shown case-g.trace >"$wanted"
tried 0 '^work 22, span 11, 2 sites' '$profile -i examples/case-g.trace'

# Case I with async for spawn: the call joins nothing, so 7 stand beside the 1 and the 2. With a finish around the call
# they stand before the 2, as in case I. Each family refuses the other's lines.
async=$out/async.trace finish=$out/finish.trace
export async finish
sed 's/^03/12/' examples/case-i.trace >"$async"
awk 'NR == 3 { print "1300000000000000000000" } { print } NR == 8 { print "0500000000000000000000" }' "$async" >"$finish"
shown case-i.trace | sed '1s/90000000000000002000000000000000200/70000000000000002000000000000000000/' >"$wanted"
tried 0 '^work 10, span 7, 2 sites, 10 lines; on the chosen chain: 4$' '$profile -f $async'
shown case-i.trace >"$wanted"
tried 0 '^work 10, span 9, 2 sites, 12 lines; on the chosen chain: 5 10$' '$profile -d 4 -f <$finish'
# the tree sum, against the table of docs/FINISH.md that was worked out by hand
sed -n 's/^| \([0-9]\) | [^|]* |\([0-9 |]*\)| [0-9.]* % |$/\1 \2/p' docs/FINISH.md | tr -d '|' |
    while read -r row numbers; do printf '%04x' "$row" && printf '%016x' $numbers 0 0 && echo; done >"$wanted"
tried 0 '^work 127, span 93, 3 sites, 41 lines; ' '$profile -f examples/treesum.trace'
echo ff0600000003 >"$wanted"
tried 1 'refusal 6, line 3: ' '$profile -f examples/case-i.trace'
tried 1 'refusal 6, line 3: ' '$profile $async'
echo ff0600000002 >"$wanted"
tried 1 'refusal 6, line 2: ' '$profile $finish'
echo ff0c00000004 >"$wanted"
tried 1 'refusal 12, line 4: ' '$profile -d 3 -f $finish'

echo ff0100000000 >"$wanted"
tried 1 'refusal 1, line 0: ' '$profile -d 65 examples/case-i.trace'
tried 1 'refusal 1, line 0: ' '$profile -d 0 examples/case-i.trace'
tried 1 'refusal 1, line 0: ' '$profile -s 256 examples/case-i.trace'
echo ff0900000001 >"$wanted"
tried 1 'refusal 9, line 1: ' '$profile -s 1 examples/case-i.trace'
echo ff0c00000003 >"$wanted"
tried 1 'refusal 12, line 3: ' '$profile -d 2 examples/case-i.trace'
: >"$wanted"
for words in '-d' '-d many' '-s 7x' '-s -1' '-x' 'examples/case-i.trace examples/case-i.trace'; do
    tried 2 '^usage: profile ' "\$profile $words"
done
for words in '<include' 'include' 'no-such-file' '<&-'; do
    tried 3 '^profile: ' "\$profile $words"
done
for trace in case-i refusal-14; do
    tried 3 '^profile: standard output: ' "\$profile examples/$trace.trace >/dev/full"
    tried 3 '^profile: standard output: ' "\$profile examples/$trace.trace >&-"
done

# The sheet of case I written, and read back bare and in quotes; one with instructions; three that are not good, and too
# little room.
sheet=$out/sheet
export sheet
cp examples/case-i.csv "$wanted"
tried 0 '' '$sheet write examples/case-i.trace'
shown case-i.trace >"$wanted"
for name in case-i case-i-quoted; do tried 0 '' "\$sheet read 2 examples/$name.csv"; done
cp examples/instructions.csv "$wanted"
tried 0 '' '$sheet write examples/instructions.trace'
shown instructions.trace >"$wanted"
tried 0 '' '$sheet read 2 examples/instructions.csv'
echo ff0f00000000 >"$wanted"
for name in line-ends header; do
    tried 1 '^sheet: refusal 15, record 0$' "\$sheet read 2 examples/refusal-15-$name.csv"
done
echo ff0f00000001 >"$wanted"
tried 1 '^sheet: refusal 15, record 1$' '$sheet read 2 examples/refusal-15-number.csv'
echo ff1000000000 >"$wanted"
tried 1 '^sheet: refusal 16, line 0$' '$sheet read 1 examples/case-i.csv'
: >"$wanted"
tried 2 '^usage: sheet ' '$sheet read 256'
tried 3 '^sheet: no-such-file: ' '$sheet write no-such-file'
tried 3 '^sheet: standard output: ' '$sheet write examples/case-i.trace >/dev/full'

# The folded stacks of the proxy, in room just enough; two lists that are not good, and too little room.
folded=$out/folded
export folded
cp examples/proxy.folded "$wanted"
of_proxy='examples/stock.names examples/proxy.trace'
tried 0 '' "\$folded 550 examples/proxy.names $of_proxy"
tried 0 '' '$folded 9999 examples/proxy.names examples/stock.names <examples/proxy.trace'
echo ff1100000000 >"$wanted"
tried 1 '^folded: refusal 17, row 0$' "\$folded 550 examples/refusal-17-line-ends.names $of_proxy"
echo ff1100000004 >"$wanted"
tried 1 '^folded: refusal 17, row 4$' "\$folded 550 examples/refusal-17-space.names $of_proxy"
echo ff1200000000 >"$wanted"
tried 1 '^folded: refusal 18, line 0$' "\$folded 549 examples/proxy.names $of_proxy"
echo ff0e00000004 >"$wanted"
tried 1 '^folded: refusal 14, line 4$' '$folded 550 examples/proxy.names examples/stock.names examples/refusal-14.trace'
: >"$wanted"
tried 2 '^usage: folded ' '$folded 550 examples/proxy.names'
tried 2 '^usage: folded ' "\$folded many examples/proxy.names $of_proxy"
tried 3 '^folded: no-such-file: ' "\$folded 550 no-such-file $of_proxy"
tried 3 '^folded: standard output: ' "\$folded 550 examples/proxy.names $of_proxy >/dev/full"

# The forecasts of the proxy with each row halved in turn, as docs/FORECAST.md shows them; of case I with site 2 halved, by
# hand, and with an empty list; and lists that are refused.
forecast=$out/forecast
export forecast
shown proxy.trace docs/FORECAST.md >"$wanted"
tried 0 '' '$forecast each 2 examples/proxy.trace'
tried 0 '' '$forecast each 2 <examples/proxy.trace'
shown case-i.trace docs/FORECAST.md >"$wanted"
tried 0 '^forecast: work 7, span 6$' '$forecast with 2/2 examples/case-i.trace'
shown case-i.trace >"$wanted"
tried 0 '^forecast: work 10, span 9$' "\$forecast with '' examples/case-i.trace"
echo ff1300000000 >"$wanted"
for entries in 6/2,6/2 6/2,4/2 9/2 0/2,1/2,2/2,3/2,4/2,5/2,6/2,7/2,8/2,9/2,10/2,11/2,12/2,13/2,14/2,15/2,16/2 6/1,4/2; do
    tried 1 '^forecast: refusal 19, line 0$' "\$forecast with $entries examples/proxy.trace"
done
echo ff1400000000 >"$wanted"
for entries in 6/1 6/0 6/1001; do tried 1 '^forecast: refusal 20, line 0$' "\$forecast with $entries examples/proxy.trace"; done
tried 1 '^forecast: refusal 20, line 0$' '$forecast each 1 examples/proxy.trace'
echo ff0e00000004 >"$wanted"
tried 1 '^forecast: refusal 14, line 4$' '$forecast with 9/1 examples/refusal-14.trace'
: >"$wanted"
for words in 'with' 'with 6' 'with 6/2,' 'with 6/x' 'each' 'each 2x' 'each 2 one two' 'none 2'; do
    tried 2 '^usage: forecast ' "\$forecast $words"
done
tried 3 '^forecast: no-such-file: ' '$forecast each 2 no-such-file'
tried 3 '^forecast: standard output: ' '$forecast each 2 examples/proxy.trace >/dev/full'
tried 3 '^forecast: standard output: ' '$forecast with 6/2 examples/proxy.trace >/dev/full'
tried 3 '^forecast: standard output: ' '$forecast with 9/2 examples/proxy.trace >/dev/full'

# Each move of docs/MOVING.md, by the page's own function, tells the span that stands in its row.
with=$(grep '^with() ' docs/MOVING.md)
sed -n 's/^| `\(with .*\)` |.* \([0-9]*\) |$/\2 \1/p' docs/MOVING.md >"$out/moves"
if [ "$(wc -l <"$out/moves")" != "$(grep -c '^| `with ' docs/MOVING.md)" ]; then
    echo "docs/MOVING.md: a row without a span at its end"
    exit 1
fi
while read -r span command; do
    echo "$span" >"$wanted"
    tried 0 '' "$with; $command | sed 's/^work [0-9]*, span \([0-9]*\),.*/\1/'"
done <"$out/moves"

# The wordy trace and the proxy compacted, in room just enough; again, and in too little room.
compact=$out/compact
export compact
cp examples/wordy-compact.trace "$wanted"
tried 0 '' '$compact 414 examples/wordy.trace'
tried 0 '' '$compact 621 <examples/wordy.trace'
tried 0 '' '$compact 414 examples/wordy-compact.trace'
cp examples/proxy.trace "$wanted"
tried 0 '' '$compact 9999 examples/proxy.trace'
cp examples/on-the-way.trace "$wanted"
tried 0 '' '$compact 483 examples/on-the-way.trace'
cp examples/instructions-compact.trace "$wanted"
tried 0 '' '$compact 483 examples/instructions.trace'
tried 0 '' '$compact 483 examples/instructions-compact.trace'
echo ff1500000000 >"$wanted"
tried 1 '^compact: refusal 21, line 0$' '$compact 413 examples/wordy.trace'
echo ff0e00000004 >"$wanted"
tried 1 '^compact: refusal 14, line 4$' '$compact 9999 examples/refusal-14.trace'
: >"$wanted"
tried 2 '^usage: compact ' '$compact'
tried 2 '^usage: compact ' '$compact many examples/wordy.trace'
tried 3 '^compact: no-such-file: ' '$compact 414 no-such-file'
tried 3 '^compact: standard output: ' '$compact 414 examples/wordy.trace >/dev/full'

# Why lines are not on the span, by the tables of the examples' page: each row of the first with its answer and its marked lines,
# and lines past the end.
why=$out/why
export why
answered() {
    case $1 in
    'tied with line '*) echo "is $1, which the chosen chain has and the first heaviest through it has not" ;;
    slack*) echo "has slack ${1##* }: the heaviest chain through it weighs that much less than the span" ;;
    *) echo "is $1" ;;
    esac
}
marked() { for n in $2; do printf '%5d ' "$n" && sed -n "$((n + 1))p" "$1"; done; }
trace=examples/why.trace
sed -En '/^## Why a line/,$s/^\| ([0-9]+) \| .* \| ([^|]*) \| ([0-9 ]+|none) \|$/\1:\2:\3/p' examples/README.md >"$out/asked"
if [ "$(wc -l <"$out/asked")" != 8 ]; then
    echo "examples/README.md: not eight lines of $trace that are asked"
    exit 1
fi
while IFS=: read -r line answer lines; do
    { echo "line $line $(answered "$answer")" && marked "$trace" "${lines#none}"; } >"$wanted"
    tried 0 '' "\$why $line $trace"
done <"$out/asked"
tried 0 '' "\$why 20 <$trace"
echo 'line 10 is not a cost line' >"$wanted"
tried 0 '' "\$why 10 $trace"
echo 'line 3 is not a cost line' >"$wanted"
tried 0 '' '$why 3 examples/instructions.trace'
echo ff1700000016 >"$wanted"
tried 1 '^why: refusal 23, line 22$' "\$why 22 $trace"
echo ff17ffffffff >"$wanted"
tried 1 '^why: refusal 23, line 4294967295$' "\$why 4294967295 $trace"
echo ff0e00000004 >"$wanted"
tried 1 '^why: refusal 14, line 4$' '$why 99 examples/refusal-14.trace'
: >"$wanted"
for words in '' many -1 4294967296 '6 one two'; do tried 2 '^usage: why ' "\$why $words"; done
tried 3 '^why: no-such-file: ' '$why 6 no-such-file'
tried 3 '^why: standard output: ' "\$why 6 $trace >/dev/full"
tried 3 '^why: standard output: ' "\$why 22 $trace >/dev/full"
echo "the C examples: $passed passed, 0 failed"
"$out/test"
