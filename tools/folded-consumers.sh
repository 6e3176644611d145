#!/bin/sh
# folded-consumers.sh: the folded stacks of the example traces in the hands of other programs: read by flamegraph.pl, which
# Debian has in its package libdevel-nytprof-perl (FLAMEGRAPH names another), and by tools/flame.py, which is written from the
# format's description. Each one's total is the total work that the C example tells; and the picture on the page of the
# examples is the one that comes out. Run by hand or at night; it says what it skipped because the program is not here. The
# last line is `N passed, 0 failed, M skipped`.
set -eu
cd "$(dirname "$0")/.."
out=target/folded lib=${NYO_LIB_DIR:-target/native}
flamegraph=${FLAMEGRAPH:-$(command -v flamegraph.pl || echo /usr/share/perl5/Devel/NYTProf/flamegraph.pl)}
[ -n "${NYO_LIB_DIR:-}" ] || tools/native-lib.sh
mkdir -p "$out"
for program in folded profile; do
    "${CC:-cc}" -std=c99 -O2 -Iinclude "c/$program.c" "$lib/libnyolifuwe.a" -o "$out/$program"
done
passed=0 failed=0 skipped=0

# held NAME ONE OTHER: two texts are the same, and not empty.
held() {
    if [ -n "$2" ] && [ "$2" = "$3" ]; then passed=$((passed + 1)); else failed=$((failed + 1)) && echo "$1: '$2' and '$3'"; fi
}

for name in case-i capitals splitter proxy; do
    text=$out/$name.folded
    work=$("$out/profile" "examples/$name.trace" 2>&1 >/dev/null | sed -n 's/^work \([0-9]*\), .*/\1/p')
    "$out/folded" 9999 examples/proxy.names examples/stock.names "examples/$name.trace" >"$text"
    held "the last fields of $name" "$work" "$(awk '{ all += $NF } END { print all }' "$text")"

    if command -v python3 >/dev/null; then
        held "tools/flame.py on $name" "$work" "$(tools/flame.py --total <"$text")"
    else
        skipped=$((skipped + 1)) && echo "skipped for $name: no python3 here"
    fi

    if command -v perl >/dev/null && [ -f "$flamegraph" ]; then
        perl "$flamegraph" "$text" >"$out/$name.svg" 2>"$out/said"
        total=$(sed -n 's/.*all (\([0-9,]*\) samples, 100%).*/\1/p' "$out/$name.svg" | head -1 | tr -d ,)
        held "flamegraph.pl on $name" "$work" "$total"
        held "what flamegraph.pl says of $name" nothing "$([ -s "$out/said" ] && cat "$out/said" || echo nothing)"
    else
        skipped=$((skipped + 1)) && echo "skipped for $name: no flamegraph.pl here"
    fi
done
if command -v python3 >/dev/null; then
    held "docs/proxy.svg" "$(cat docs/proxy.svg)" "$(tools/flame.py <"$out/proxy.folded")"
fi
echo "$passed passed, $failed failed, $skipped skipped"
[ "$failed" = 0 ]
