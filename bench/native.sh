#!/usr/bin/env bash
# Prints the processor time that `generate` takes, and `generate_by` with the joint's rules as trees, on a world of 2,000 places with 400 progression items and on a chain of 1,000
# keys, each of which opens the way to the next region; and what reach takes for one list of the caves, whose rules have up to eight forms, by trees and by a closure over the
# same rules compiled into a match. Each is the best of five runs, with the time to read the world. Run after `rt run` in crates/mw_bench, which leaves the program.
set -eu
cd "$(dirname "$0")/.."
program=$PWD/crates/mw_bench/out/mw_bench
[ -x "$program" ] || { echo "build it first: (cd crates/mw_bench && rt run)" >&2; exit 1; }
work=$(mktemp -d)
trap 'rm -rf "$work"' EXIT
python3 bench/worlds.py "$work"
python3 - "$program" "$work" <<'PY'
import os, re, subprocess, sys
program, folder = sys.argv[1:]
source = open("crates/mw_bench/src/caves.rt").read()
with open(folder + "/caves.json", "w") as f:
    f.write(re.search(r'WORLD: &str = r#"(.*?)"#', source, re.S).group(1))

def best(work, times, world):
    """The fewest seconds of the processor that the work took once."""
    spent = []
    for _ in range(5):
        child = subprocess.Popen([program, work, str(times), folder + "/" + world], stdout=subprocess.DEVNULL)
        used = os.wait4(child.pid, 0)[2]
        child.returncode = 0
        spent.append(used.ru_utime + used.ru_stime)
    return min(spent) / times

for name in ("small", "chain"):
    for work in ("generate", "generate_by"):
        print("%s, %s: %.4f s a seed" % (name, work, best(work, 20, name + "_world.json")))
for work in ("tree", "closure"):
    print("reach by a %s: %.0f ns a list" % (work, best(work, 1000000, "caves.json") * 1e9))
PY
