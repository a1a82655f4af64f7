#!/usr/bin/env bash
# Holds `generate` against a plain fill, step by step, on small random worlds of one to three players: the plain one makes each list of places anew for each item. How many is the first argument,
# 100 without one. It prints each world on which the two differ, and how many came out as a seed, as not beatable, as exhausted, or as too many items.
# Run after `rt run` in crates/mw_cli, which leaves the program.
set -eu
cd "$(dirname "$0")/.."
program=$PWD/crates/mw_cli/out/mw_cli
[ -x "$program" ] || { echo "build it first: (cd crates/mw_cli && rt run)" >&2; exit 1; }
python3 bench/random_worlds.py "$program" "${1:-100}"
