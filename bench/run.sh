#!/bin/sh
# Proves and builds the static library, links it with the benchmark, and runs that.
set -eu
cd "$(dirname "$0")/.."
(cd crates/bench_abi && rt lib)
mkdir -p target/bench
rustc --edition 2024 -C opt-level=3 -C panic=abort -o target/bench/turn_list bench/main.rs -L crates/bench_abi/out -l static=bench_abi
exec target/bench/turn_list
