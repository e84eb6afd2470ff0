#!/usr/bin/env bash
# Proves crates and builds them, beginning with what earlier checks kept: ./build.sh NAME... leaves a program as
# crates/NAME/out/NAME, a static library as crates/NAME/out/libNAME.a. It says nothing but why it failed.
set -euo pipefail
cd "$(dirname "$0")/crates"
for name; do
    # What builds a program runs it too: here on no input.
    verb=lib
    [ ! -e "$name/src/main.rt" ] || verb=run
    said=$(cd "$name" && rt "$verb" </dev/null 2>&1) || { printf '%s\n' "$said"; exit 1; }
done
