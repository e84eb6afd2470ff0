#!/usr/bin/env bash
# Times the replay of a capture in memory, a million events, beside plain Rust. Run it on a quiet machine.
#   bench/replay.sh            compare the answers, then time
#   bench/replay.sh compare    only compare
set -euo pipefail
cd "$(dirname "$0")/replay"
../../build.sh replay_bench_c
mkdir -p target
cp ../../crates/replay_bench_c/out/libreplay_bench_c.a target/libreplay_bench.a
cargo run --release --offline --quiet -- "$@"
