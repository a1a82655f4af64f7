#!/usr/bin/env bash
# Prints what bench/journal.py measures of journals and of pair rooms, in a folder of its own, which it removes:
# - the time (passed, and of the processor) and memory of `drive` on a journal with 1,000,000 checks and an empty script, which recovers it; of 2,000 checks on a journal with a take after each, after
#   each fiftieth and after the last, with the syncs that it made, and of the same in memory; and of one check on a journal that is full;
# - what happens where a second program is run on a journal that a first one plays on: the second ends with status 5 and changes nothing, and the first goes on;
# - what comes back where a run is killed at a random moment: each run of a script of checks, every third followed by a take, is killed, and the next one must find every check that a taken message showed;
# - of pair rooms: the time and memory of `thin` on a journal of 1,000,000 records, nine in ten of them old values, beside those of its recovery; `thin` on a CHOICE that has room for one name more, and
#   then for none; and `thin` killed at random moments, after each of which the room must tell every check that was shown and the last value of each key.
# How many runs are killed is the first argument, 1,000 without one. With the second argument `thin` it measures pair rooms alone.
# The program is crates/mw_cli/out/mw_cli, or what the variable MULTIWORLD names. Run after `rt run` in crates/mw_cli, which leaves it. The folder lies in TMPDIR, and takes up to 1.1 GB.
set -eu
cd "$(dirname "$0")/.."
program=$(realpath -m "${MULTIWORLD:-crates/mw_cli/out/mw_cli}")
[ -x "$program" ] || { echo "build it first: (cd crates/mw_cli && rt run)" >&2; exit 1; }
room=$(mktemp -d)
trap 'rm -rf "$room"' EXIT
python3 bench/journal.py "$program" "$room" "${1:-1000}" "${2:-all}"
