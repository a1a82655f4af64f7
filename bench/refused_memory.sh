#!/usr/bin/env bash
# Refuses the program one allocation a run, from the first on to the last: `drive` of a check of Room A, in memory and on a new journal; `generate` of a world of two locations; `drive` without commands
# on a journal with one check, and on one whose gate is torn; and `serve` for two clients, of whom the first hears of the second's check. It prints how many runs there were and how they ended: done as without a refusal, or with
# status 6 and a front of the same output. Where there is a journal, a later run must find each record that it had, and each check that was shown. What else happens is printed, and ends it with status 1.
# It is over within ten minutes. It needs a C compiler. The program is crates/mw_cli/out/mw_cli, or what the variable MULTIWORLD names.
# Run after `rt run` in crates/mw_cli, which leaves the program.
set -eu
cd "$(dirname "$0")/.."
program=$(realpath -m "${MULTIWORLD:-crates/mw_cli/out/mw_cli}")
[ -x "$program" ] || { echo "build it first: (cd crates/mw_cli && rt run)" >&2; exit 1; }
room=$(mktemp -d)
trap 'rm -rf "$room"' EXIT
"${CC:-cc}" -O2 -shared -fPIC -o "$room/refuse.so" bench/refuse.c
PYTHONDONTWRITEBYTECODE=1 timeout -k 5 600 python3 bench/refused_memory.py "$program" "$room"
