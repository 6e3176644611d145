#!/bin/sh
# run.sh [SAMPLES]: times both engines against plain Rust, the Python script and a pass that only sums the bytes, and the
# writer of folded stacks, the forecasts, the compactor, traces with instructions and why lines are not on the span against plain
# Rust. The tables are printed, and the CSV file of the engines, the traces and the picture are left in target/bench.
set -eu
cd "$(dirname "$0")/.."
. tools/usage.sh
numbers 'bench/run.sh [SAMPLES]' 1 "$@"
out=$PWD/target/bench
tools/native-lib.sh
for tool in gnuplot python3; do
    command -v "$tool" >/dev/null || { echo "needs $tool (Debian: apt-get install gnuplot-nox python3)"; exit 1; }
done
mkdir -p "$out"
cargo run --quiet --release --offline --manifest-path second/Cargo.toml --bin bench -- "$out" "$@"
gnuplot -e "csv='$out/bench.csv'; picture='$out/bench.svg'" bench/plot.gp
echo "target/bench/bench.csv and target/bench/bench.svg are written"
