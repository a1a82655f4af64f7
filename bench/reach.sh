#!/usr/bin/env bash
# Prints the time (passed, and of the processor) and memory of `reach` on a world of 5,000 regions and 10,000 locations whose entrances are listed in the worst order, and on 64 slots of 200 locations each.
# Run after `rt run` in crates/mw_cli, which leaves the program.
set -eu
cd "$(dirname "$0")/.."
program=$PWD/crates/mw_cli/out/mw_cli
[ -x "$program" ] || { echo "build it first: (cd crates/mw_cli && rt run)" >&2; exit 1; }
work=$(mktemp -d)
trap 'rm -rf "$work"' EXIT
python3 - "$work" <<'PY'
import json, sys
folder = sys.argv[1]

def write(name, value):
    with open(folder + "/" + name, "w") as f:
        json.dump(value, f, separators=(",", ":"))

def world(game, regions, locations, keys):
    """Each region but the first is entered from the one before it; every third way wants a key, which lies before it."""
    names = ["Menu"] + ["R%d" % r for r in range(1, regions)]
    items = [{"name": "Key %d" % k, "id": k, "class": "progression"} for k in range(1, keys + 1)]
    items += [{"name": "Coin", "id": keys + 1, "class": "filler"}]
    entrances = [
        {"name": "To %s" % names[r], "from": names[r - 1], "to": names[r],
         "rule": {"has": "Key %d" % (r % keys + 1)} if r % 3 == 0 else {"can_reach": {"region": names[r - 1]}}}
        for r in range(regions - 1, 0, -1)
    ]
    places = [{"name": "L%d" % n, "id": n + 1, "region": names[n * regions // locations], "rule": True} for n in range(locations)]
    pool = [{"item": "Key %d" % k, "count": 1} for k in range(1, keys + 1)]
    return {"format": "mw-world-1", "game": game, "regions": names, "items": items, "entrances": entrances,
            "locations": places, "pool": pool, "filler": "Coin", "goal": {"has": "Key 1"}}

write("wide.json", world("Wide", 5000, 10000, 400))
write("small.json", world("Small", 60, 200, 20))
write("one.json", {"format": "mw-players-1", "players": [{"names": ["Ann"], "world": folder + "/wide.json"}]})
write("many.json", {"format": "mw-players-1", "players": [{"names": ["P%d" % p], "world": folder + "/small.json"} for p in range(1, 65)]})
PY
ls -l "$work"/*.json | awk '{print $9 ": " $5 " bytes"}' | sed 's|.*/||'
python3 - "$program" "$work" <<'PY'
import resource, subprocess, sys, time
program, folder = sys.argv[1:]
before = 0.0
for name in ("one.json", "many.json"):
    begin = time.time()
    run = subprocess.run([program, "reach", folder + "/" + name], stdout=subprocess.PIPE)
    passed = time.time() - begin
    usage = resource.getrusage(resource.RUSAGE_CHILDREN)
    spent, before = usage.ru_utime + usage.ru_stime - before, usage.ru_utime + usage.ru_stime
    print("%s: status %d, %.2f s (processor %.2f s), %d MB at most so far, first line: %s" % (name, run.returncode, passed, spent, usage.ru_maxrss // 1024, run.stdout.split(b"\n")[0].decode()))
PY
