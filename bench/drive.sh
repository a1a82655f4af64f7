#!/usr/bin/env bash
# Prints the time (passed, and of the processor) and memory of `drive` on a seed file of about 17 MB with a script of 2,000 checks over two slots, and on one of about 60 MB;
# then on one of 64 slots with 3,125 locations each, with 20,000 checks over all slots and with 200,000, and a take after each twentieth. The sessions are silent,
# but in one run more of 20,000 checks, in which each of the 64 sessions hears of each item that is sent. In a room like it each item is for a group of all 64, with 2,000 checks. Last come 2,000 and 20,000 Sets on 100 keys, each of which ten of
# 64 sessions watch, with a take after each twentieth, and 12 Bounces of 524,288 bytes each, which nobody hears. A run is stopped after 120 s.
# Where valgrind is installed, it counts the instructions of a check and of an open too, by the differences of scripts.
# Run after `rt run` in crates/mw_cli, which leaves the program.
set -eu
cd "$(dirname "$0")/.."
program=$PWD/crates/mw_cli/out/mw_cli
[ -x "$program" ] || { echo "build it first: (cd crates/mw_cli && rt run)" >&2; exit 1; }
room=$(mktemp -d)
trap 'rm -rf "$room"' EXIT
python3 - "$room" <<'PY'
import json, sys
folder = sys.argv[1]

def write_seed(name, slots, per, shared=False):
    """A seed file of so many slots with so many locations each, written entry by entry; or each item is for a group of all slots."""
    games = {"G": {"item_name_to_id": {"Item": 1}, "location_name_to_id": {"L%d" % n: n for n in range(1, per + 1)}}}
    server = {"collect": "goal", "hint_cost": 10, "location_check_points": 1, "password": "", "release": "goal", "remaining": "goal"}
    people = [{"names": ["P%d" % s], "game": "G", "start": []} for s in range(1, slots + 1)]
    compact = lambda value: json.dumps(value, separators=(",", ":"))
    with open(folder + "/" + name, "w") as f:
        f.write('{"format":"mw-multidata-%d","seed_name":"bench","teams":1,"spheres":[]' % (2 if shared else 1))
        if shared:
            f.write(',"groups":%s' % compact([{"name": "All", "game": "G", "members": list(range(1, slots + 1))}]))
        f.write(',"server":%s,"games":%s,"slots":%s,"locations":[' % (compact(server), compact(games), compact(people)))
        for s in range(1, slots + 1):
            entries = ",".join("[%d,%d,1,%d,0]" % (s, n, slots + 1 if shared else (s + n) % slots + 1) for n in range(1, per + 1))
            f.write(entries if s == 1 else "," + entries)
        f.write("]}")

write_seed("seed.json", 100, 10000)
write_seed("large_seed.json", 340, 10000)
write_seed("many_slots_seed.json", 64, 3125)
write_seed("small_seed.json", 64, 3)
write_seed("shared_seed.json", 64, 3125, True)
connect = '[{"cmd":"Connect","game":"G","items_handling":7,"name":"P%d","tags":%s,"version":{"build":0,"class":"Version","major":0,"minor":5}}]'

def write_script(name, slots, checks, pace, tags='["NoText"]'):
    """A script in which each slot connects with these tags, and the slots check their locations in turn; after each so many checks a session takes, one after the other, and all do at the end."""
    lines = []
    for s in range(1, slots + 1):
        lines += ["open", "text %d %s" % (s, connect % (s, tags))]
    for k in range(checks):
        lines.append('text %d [{"cmd":"LocationChecks","locations":[%d]}]' % (k % slots + 1, k // slots + 1))
        if k % pace == pace - 1:
            lines.append("take %d" % (k // pace % slots + 1))
    lines += ["take %d" % s for s in range(1, slots + 1)]
    with open(folder + "/" + name, "w") as f:
        f.write("\n".join(lines) + "\n")

def write_sets(name, slots, keys, watchers, sets, pace):
    """A script in which each slot connects, so many sessions watch each key, and the slots add to the keys in turn; with takes as above."""
    lines = []
    for s in range(1, slots + 1):
        watched = ['"k%d"' % k for k in range(keys) if (s - 1 - k * watchers) % slots < watchers]
        lines += ["open", "text %d %s" % (s, connect % (s, '["NoText"]')), 'text %d [{"cmd":"SetNotify","keys":[%s]}]' % (s, ",".join(watched))]
    for n in range(sets):
        lines.append('text %d [{"cmd":"Set","key":"k%d","operations":[{"operation":"add","value":1}]}]' % (n % slots + 1, n % keys))
        if n % pace == pace - 1:
            lines.append("take %d" % (n // pace % slots + 1))
    lines += ["take %d" % s for s in range(1, slots + 1)]
    with open(folder + "/" + name, "w") as f:
        f.write("\n".join(lines) + "\n")

def write_bounces(name, item, many):
    """A script in which a slot connects and sends so many Bounces of as many bytes as a message may have, filled with this value; no session plays the slot that they name."""
    front, back = '[{"cmd":"Bounce","slots":[2],"data":[', "]}]"
    items = ",".join([item] * ((524288 - len(front + back)) // (len(item) + 1)))
    message = front + items + " " * (524288 - len(front + items + back)) + back
    lines = ["open", "text 1 " + connect % (1, '["NoText"]')] + ["text 1 " + message] * many
    with open(folder + "/" + name, "w") as f:
        f.write("\n".join(lines) + "\n")

write_bounces("objects.txt", '{"cause":"fell into a pit","source":"Ann","time":1712345678.250}', 12)
write_bounces("words.txt", '"what a player says who likes to talk, and who goes on and on and on about it"', 12)
write_bounces("wholes.txt", "12345", 12)
write_bounces("numerals.txt", "1.250", 12)
write_script("none.txt", 64, 0, 20)
with open(folder + "/none.txt") as f, open(folder + "/one_more.txt", "w") as more:
    more.write(f.read() + "open\n")
write_sets("sets.txt", 64, 100, 10, 2000, 20)
write_sets("most_sets.txt", 64, 100, 10, 20000, 20)
write_script("few.txt", 2, 2000, 2001)
write_script("many.txt", 64, 20000, 20)
write_script("heard.txt", 64, 20000, 20, "[]")
write_script("most.txt", 64, 200000, 20)
write_script("shared.txt", 64, 2000, 20)
open(folder + "/empty.txt", "w").close()
PY
ls -l "$room"/*seed.json | awk '{print $9 ": " $5 " bytes"}' | sed 's|.*/||'
python3 - "$program" "$room" <<'PY'
import resource, subprocess, sys, time
program, folder = sys.argv[1:]
limit = 120
before = 0.0
runs = [
    ("seed.json", "empty script", "empty.txt"),
    ("seed.json", "2,000 checks over 2 slots", "few.txt"),
    ("large_seed.json", "empty script", "empty.txt"),
    ("many_slots_seed.json", "20,000 checks over 64 slots", "many.txt"),
    ("many_slots_seed.json", "20,000 checks over 64 slots that hear text", "heard.txt"),
    ("many_slots_seed.json", "200,000 checks over 64 slots", "most.txt"),
    ("shared_seed.json", "2,000 checks of items that 64 slots share", "shared.txt"),
    ("small_seed.json", "2,000 Sets on 100 watched keys", "sets.txt"),
    ("small_seed.json", "20,000 Sets on 100 watched keys", "most_sets.txt"),
    ("small_seed.json", "12 Bounces of 524,288 bytes with objects", "objects.txt"),
    ("small_seed.json", "the same with words", "words.txt"),
    ("small_seed.json", "the same with whole numbers", "wholes.txt"),
    ("small_seed.json", "the same with fractions", "numerals.txt"),
]
for seed, name, script in runs:
    begin = time.time()
    try:
        with open(folder + "/" + script, "rb") as lines:
            run = subprocess.run([program, "drive", folder + "/" + seed], stdin=lines, stdout=subprocess.PIPE, timeout=limit)
        end = "status %d, %.2f s" % (run.returncode, time.time() - begin)
        out = "%d bytes out" % len(run.stdout)
    except subprocess.TimeoutExpired:
        end, out = "not done after %d s, stopped" % limit, "what it had put is dropped"
    usage = resource.getrusage(resource.RUSAGE_CHILDREN)
    spent, before = usage.ru_utime + usage.ru_stime - before, usage.ru_utime + usage.ru_stime
    print("%s, %s: %s (processor %.2f s), %d MB at most so far, %s" % (seed, name, end, spent, usage.ru_maxrss // 1024, out))
PY
command -v valgrind > /dev/null || exit 0
count() {
  valgrind --tool=callgrind --callgrind-out-file=/dev/null "$program" drive "$room/${2:-many_slots_seed.json}" < "$room/$1" 2>&1 > /dev/null | awk '/Collected/ {print $NF}'
}
none=$(count none.txt)
echo "instructions: $(( ($(count many.txt) - none) / 20000 )) a check of 20,000 over 64 slots, $(( $(count one_more.txt) - none )) an open"
none=$(count none.txt shared_seed.json)
echo "$(( ($(count shared.txt shared_seed.json) - none) / 2000 )) a check of an item that 64 slots share"
