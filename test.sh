#!/usr/bin/env bash
# Passes all tests. The last line is the count of rt ci, 'N passed, 0 failed', where the rest has passed too.
set -euo pipefail
cd "$(dirname "$0")"
log=$(mktemp)
trap 'rm -f "$log"' EXIT
fail() { # WHAT SAID
    printf '%s\nFAILED: %s\n' "$2" "$1"
    exit 1
}

# The second program: its own tests, full coverage of the traffic, and demand 3 by trial.
(cd second && cargo test --release --offline --quiet && cargo build --release --offline --quiet)
second=second/target/release
$second/cover 0 199 >/dev/null
$second/cover --captures 0 199 >/dev/null
$second/demand3 0 199

# The gate: every crate is proved, each must-fail edit is refused, and each program writes what it should. A bad edit says
# nothing of a contract, and rt ci lets it pass.
rt ci 2>&1 | tee "$log"
! grep -q '^rt: ok;.*, [1-9][0-9]* bad' "$log" || fail 'a must-fail edit is bad' ''

# What follows says nothing unless it fails. The players are those that the gate built: it puts aside what lay in out/ before.
traffic=crates/traffic/out/traffic
capture=crates/capture/out/capture

# The same traffic, right and damaged, on the second program and on the proved bridge. A difference is printed with its first
# event, and its file is made smaller.
said=$($second/compare $traffic 0 199 2>&1) || {
    for f in *.traffic; do $second/shrink $second/play $traffic "$f" || true; done
    fail traffic "$said"
}
# Captures, right and damaged, in blocks of any size, and files at an edge.
said=$($second/compare --captures $capture 0 199 2>&1) || fail captures "$said"
# A capture that cannot be read counts as one that has ended, and is said; so is a line that cannot be written.
said=$($capture 2>&1 </) && [[ $said == *"standard input"* && $said == *"cut after 0"* ]] || fail 'capture, input that fails' "$said"
said=$($capture 2>&1 >/dev/full </dev/null) && [[ $said == *"standard output"* ]] || fail 'capture, output that fails' "$said"
# Input and output that fail: the player says so, and play.sh has a status for it.
for trial in $traffic './play.sh --status'; do
    said=$($second/failing $trial 2>&1) || fail "$trial, failures" "$said"
done
# What the benchmarks time answers as plain Rust does, on right tables and captures and on any others.
for timed in run.sh replay.sh; do
    said=$("bench/$timed" compare 2>&1) || fail "bench/$timed" "$said"
done
# Wrong machines: demand 3 refuses each, or is said not to need the rule.
said=$(crates/trace/wrong.sh 2>&1) || fail 'wrong machines' "$said"

tail -n 1 "$log"
