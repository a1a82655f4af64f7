#!/usr/bin/env bash
# Plays a room of `serve` by two `multiplay`s over loopback, all three of which are killed at random moments, a hundred times or as often as the first argument says. After each time it reads the
# save files: a list never gets shorter. In the end each player connects once more, and the list that `multiplay` prints has to be the one that `drive` gives for a Connect on the journal.
# It prints how often who was killed, and the differences; its status is 0 where there are none. It is over within ten minutes.
# The programs are crates/mw_cli/out/mw_cli and crates/mw_multiplay/out/mw_multiplay, or what the variables MULTIWORLD and MULTIPLAY name.
# Run after `rt run` in crates/mw_cli and in crates/mw_multiplay, which leave them.
set -eu
cd "$(dirname "$0")/.."
program=$(realpath -m "${MULTIWORLD:-crates/mw_cli/out/mw_cli}")
client=$(realpath -m "${MULTIPLAY:-crates/mw_multiplay/out/mw_multiplay}")
[ -x "$program" ] || { echo "build it first: (cd crates/mw_cli && rt run)" >&2; exit 1; }
[ -x "$client" ] || { echo "build it first: (cd crates/mw_multiplay && rt run)" >&2; exit 1; }
room=$(mktemp -d)
trap 'rm -rf "$room"' EXIT
timeout -k 5 600 python3 bench/multiplay.py "$program" "$client" "$room" "${1:-100}"
