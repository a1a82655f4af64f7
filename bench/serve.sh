#!/usr/bin/env bash
# Prints what `serve` does over loopback, by clients that count (bench/serve.py): with 32 clients that each send 5 checks a second, the time from a check to its push at another client, with the journal
# on a disk and in memory; with 64 workers and 64 connected clients the server's processor time and memory at rest; and at full load, with messages of four checks, the checks a second, the appends and the
# checks in each. It prints how long a sync takes in each place too. It is over within ten minutes.
# The journals lie in a folder of DISK, which is /var/tmp where the variable isn't set, and in one of /dev/shm. The program is crates/mw_cli/out/mw_cli, or what the variable MULTIWORLD names.
# Run after `rt run` in crates/mw_cli, which leaves the program.
set -eu
cd "$(dirname "$0")/.."
program=$(realpath -m "${MULTIWORLD:-crates/mw_cli/out/mw_cli}")
[ -x "$program" ] || { echo "build it first: (cd crates/mw_cli && rt run)" >&2; exit 1; }
disk=$(mktemp -d -p "${DISK:-/var/tmp}")
memory=$(mktemp -d -p /dev/shm)
trap 'rm -rf "$disk" "$memory"' EXIT
PYTHONDONTWRITEBYTECODE=1 timeout -k 5 600 python3 bench/serve.py "$program" "$disk" "$memory"
