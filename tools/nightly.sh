#!/bin/sh
# nightly.sh [CASES [SEED]]: the nightly comparison: the C test, other programs on comma-separated text and folded stacks,
# nyo's page in a browser and its night over a cluster, CASES generated cases against the second program (a million of a
# seed made from the date, if not said), and a minute of fuzzing. The seed is printed, so that a night can be repeated.
set -eu
cd "$(dirname "$0")/.."
. tools/usage.sh
numbers 'tools/nightly.sh [CASES [SEED]]' 2 "$@"
cases=${1:-1000000} seed=${2:-$(date +%Y%m%d)}
tools/native-lib.sh
c/run.sh
tools/sheet-consumers.sh
tools/folded-consumers.sh
tools/nyo-nightly.sh
echo "fuzzing for a minute, seed $seed"
FUZZ_SECONDS=60 fuzz/run.sh 1000000000 "$seed"
echo "comparing $cases cases of seed $seed"
cargo run --quiet --release --offline --manifest-path second/Cargo.toml --bin compare -- "$cases" "$seed"
