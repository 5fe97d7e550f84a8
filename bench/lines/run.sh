#!/bin/sh
# Builds the proved library and the benchmark, and runs it. Outside the gate.
set -e
cd "$(dirname "$0")/../.."
(cd crates/lines_bench && rt lib)
mkdir -p target/bench
rustc --edition 2021 -O -o target/bench/lines bench/lines/main.rs -L native=crates/lines_bench/out -l static=lines_bench
target/bench/lines
