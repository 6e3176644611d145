#!/bin/sh
# run.sh [INPUTS [SEED]]: fuzzes every exported function with the address sanitizer, 200,000 inputs of seed 1 if not
# said: by clang's libFuzzer or, where there is none, by generated inputs (fuzz/plain.c). FUZZ_SECONDS=60 ends it after a
# minute; CLANG and CC name other compilers. A failing input is left in target/fuzz, and its path printed.
set -eu
cd "$(dirname "$0")/.."
. tools/usage.sh
numbers 'fuzz/run.sh [INPUTS [SEED]]' 2 "$@"
numbers 'FUZZ_SECONDS=SECONDS fuzz/run.sh [INPUTS [SEED]]' 1 ${FUZZ_SECONDS:+"$FUZZ_SECONDS"}
inputs=${1:-200000} seed=${2:-1} seconds=${FUZZ_SECONDS:-0}
clang=${CLANG:-clang} cc=${CC:-cc} out=target/fuzz lib=${NYO_LIB_DIR:-target/native}
flags='-std=c99 -D_DEFAULT_SOURCE -O2 -g -Wall -Wextra -Iinclude'
[ -n "${NYO_LIB_DIR:-}" ] || tools/native-lib.sh
mkdir -p "$out"

# links FUNCTION COMPILER FLAG: whether the compiler makes a program of a function with the flag.
links() { echo "int $1(void) { return 0; }" | "$2" "$3" -x c - -o "$out/try" 2>/dev/null; }

by_libfuzzer() {
    "$clang" $flags -fsanitize=fuzzer,address fuzz/fuzz.c "$lib/libnyolifuwe.a" -o "$out/fuzz"
    rm -rf "$out/corpus" && mkdir "$out/corpus"
    "$out/fuzz" -runs="$inputs" -seed="$seed" -max_len=4096 -max_total_time="$seconds" -artifact_prefix="$out/" \
        -print_final_stats=1 "$out/corpus" >"$out/log" 2>&1 || { tail -40 "$out/log" && exit 1; }
    grep -E 'average_exec_per_sec|new_units_added' "$out/log"
    tried=$(sed -n 's/^stat::number_of_executed_units: *//p' "$out/log")
}

by_generated_inputs() {
    echo "NO LIBFUZZER HERE (Debian's package clang has it): inputs are generated, and nothing guides them"
    sanitize=-fsanitize=address
    if ! links main "$cc" "$sanitize"; then
        echo "NO ADDRESS SANITIZER HERE: what is lent still lies against pages that cannot be touched"
        sanitize=''
    fi
    "$cc" $flags $sanitize fuzz/plain.c fuzz/fuzz.c "$lib/libnyolifuwe.a" -o "$out/plain"
    tried=$(ASAN_OPTIONS=abort_on_error=1 "$out/plain" "$inputs" "$seed" "$seconds" "$out/failed") ||
        { echo "the input that failed is left in $out/failed" && exit 1; }
}

if links LLVMFuzzerTestOneInput "$clang" -fsanitize=fuzzer,address; then by_libfuzzer; else by_generated_inputs; fi
if [ "$seconds" = 0 ] && [ "$tried" -lt "$inputs" ]; then
    echo "only $tried of $inputs inputs were tried"
    exit 1
fi
echo "$tried inputs, 0 failed"
