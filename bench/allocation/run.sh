#!/usr/bin/env bash
# Builds the proved library and the benchmark, and runs it. Outside the gate; needs rustc.
set -eu
cd "$(dirname "${BASH_SOURCE[0]}")/../.."
mkdir -p target/bench
(cd crates/allocation_bench && rt lib) > target/bench/allocation.log 2>&1 || { cat target/bench/allocation.log; exit 1; }
rustc --edition 2021 -C opt-level=3 -o target/bench/allocation bench/allocation/main.rs -L native=crates/allocation_bench/out -l static=allocation_bench
target/bench/allocation
