#!/bin/sh
# sheet-consumers.sh: the comma-separated text of the example traces in the hands of other programs: read by Python's csv, by
# sqlite3's `.import --csv` and by miller, and written back by Python's csv in each of its quoting modes and by LibreOffice, and
# read again. What LibreOffice on Linux writes is refused, and read once it has its CRs, where all columns were opened as text.
# Run by hand or at night; it says what it skipped because the program is not here. The last line is
# `N passed, 0 failed, M skipped`.
set -eu
cd "$(dirname "$0")/.."
out=target/sheets lib=${NYO_LIB_DIR:-target/native}
[ -n "${NYO_LIB_DIR:-}" ] || tools/native-lib.sh
mkdir -p "$out"
"${CC:-cc}" -std=c99 -O2 -Iinclude c/sheet.c "$lib/libnyolifuwe.a" -o "$out/sheet"
passed=0 failed=0 skipped=0

# held NAME ONE OTHER: two files are the same.
held() {
    if cmp -s "$2" "$3"; then passed=$((passed + 1)); else failed=$((failed + 1)) && echo "$1: $2 and $3 differ"; fi
}

have() {
    command -v "$1" >/dev/null || { skipped=$((skipped + 1)) && echo "skipped for $2: no $1 here" && return 1; }
}

# The largest numbers, which a program that keeps numbers as floats does not give back.
printf 'row,calls,work,span,local,onspan,ilocal,ionspan\r\n0,18446744073709551615,18446744073709551614,9007199254740993,10,0,1,18446744073709551613\r\n' >"$out/largest.csv"
for trace in case-i proxy instructions; do "$out/sheet" write "examples/$trace.trace" >"$out/$trace.csv"; done

for name in case-i proxy instructions largest; do
    csv=$out/$name.csv
    "$out/sheet" read 31 "$csv" >"$out/$name.report"
    tr -d '\r' <"$csv" >"$out/$name.plain"

    if have python3 "$name"; then
        python3 - "$csv" "$out/$name" <<'PYTHON'
import csv, sys
source, to = sys.argv[1:]
records = list(csv.reader(open(source, newline="")))
with open(to + ".python", "w") as plain:
    for record in records:
        print(",".join(record), file=plain)
numbers = [records[0]] + [[int(field) for field in record] for record in records[1:]]
for mode in ("MINIMAL", "ALL", "NONNUMERIC", "NONE"):
    with open(f"{to}.{mode}.csv", "w", newline="") as written:
        csv.writer(written, quoting=getattr(csv, "QUOTE_" + mode)).writerows(numbers)
PYTHON
        held "python's csv" "$out/$name.python" "$out/$name.plain"
        for mode in MINIMAL ALL NONNUMERIC NONE; do
            "$out/sheet" read 31 "$out/$name.$mode.csv" >"$out/$name.again" || :
            held "python's csv, QUOTE_$mode" "$out/$name.again" "$out/$name.report"
        done
    fi

    if have sqlite3 "$name"; then
        sqlite3 -csv -header -newline '
' :memory: ".import --csv $csv sheet" "select * from sheet;" | tr -d '\r' >"$out/$name.sqlite"
        held "sqlite3" "$out/$name.sqlite" "$out/$name.plain"
    fi

    if have mlr "$name"; then
        mlr --csv --ofs , cat "$csv" | tr -d '\r' >"$out/$name.miller"
        held "miller" "$out/$name.miller" "$out/$name.plain"
    fi

    if have soffice "$name"; then
        as_text=44,34,76,1,1/2/2/2/3/2/4/2/5/2/6/2/7/2/8/2 filter='Text - txt - csv (StarCalc)'
        HOME=$PWD/$out soffice --headless --infilter="$filter:$as_text" --convert-to "csv:$filter:44,34,76,1" \
            --outdir "$out/libreoffice" "$csv" >"$out/log" 2>&1
        "$out/sheet" read 31 "$out/libreoffice/$name.csv" >"$out/$name.again" || :
        echo ff0f00000000 >"$out/refused"
        held "LibreOffice, as it writes" "$out/$name.again" "$out/refused"
        sed 's/$/\r/' "$out/libreoffice/$name.csv" | "$out/sheet" read 31 >"$out/$name.again" || :
        held "LibreOffice, with CRs" "$out/$name.again" "$out/$name.report"
    fi
done
echo "$passed passed, $failed failed, $skipped skipped"
[ "$failed" = 0 ]
