#!/usr/bin/env bash
# Builds the program, generates the seed of examples/players.json, checks it, and plays the script examples/first_find.txt on it.
set -eu
cd "$(dirname "$0")/.."
program=crates/mw_cli/out/mw_cli
seed=$(mktemp)
trap 'rm -f "$seed"' EXIT

# A run builds what has changed.
(cd crates/mw_cli && rt run -- drive ../../examples/room_a.json < /dev/null)
"$program" generate examples/players.json "$seed" --seed 7
"$program" check examples/players.json "$seed"
"$program" drive "$seed" < examples/first_find.txt
