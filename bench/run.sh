#!/usr/bin/env bash
# Times the choice of a window: before request A3, now, and in plain Rust. Run it on a quiet machine.
#   bench/run.sh            compare the answers, then time
#   bench/run.sh compare    only compare
set -euo pipefail
cd "$(dirname "$0")"
../build.sh window_bench_c
mkdir -p target
cp ../crates/window_bench_c/out/libwindow_bench_c.a target/libwindow_bench.a
cargo run --release --offline --quiet --bin windows -- "$@"
