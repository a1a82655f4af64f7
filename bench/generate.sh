#!/usr/bin/env bash
# Prints the time (passed, and of the processor) and memory of `generate` and `check` on worlds of 2,000 places with 400 progression items and of 10,000 with 2,000; on chains of 1,000 and
# 4,000 keys, each of which opens the way to the next region; on a chain of 1,000 regions of which the last alone has free locations; and for 5 and 20 players of the world of 10,000 places.
# Then the same on deep worlds, where a key that is missing shuts off keys that shut off more: 50,000 places on 50 slots of one world, on 50 different worlds, on 10 slots and on 5, and on 50 slots of one
# world with ten links, where a third of the slots wants no more than their goals; with the word `biggest` also 200,000 places on 20 slots, which takes minutes.
# Where rustc is there it then times a plain fill and a plain playthrough on worlds of the same shape, and on the deep worlds a plain program that takes keys out of one list and puts them back.
# Where valgrind is there it counts the instructions of `generate` and of `reach` on the 50 slots.
# Run after `rt run` in crates/mw_cli, which leaves the program.
set -eu
cd "$(dirname "$0")/.."
program=$PWD/crates/mw_cli/out/mw_cli
[ -x "$program" ] || { echo "build it first: (cd crates/mw_cli && rt run)" >&2; exit 1; }
work=$(mktemp -d)
trap 'rm -rf "$work"' EXIT
python3 bench/worlds.py "$work" --deep
deep="deep_thousand deep_apart deep_five deep_ten"
[ "${1:-}" = biggest ] && deep="$deep deep_biggest"
python3 - "$program" "$work" small large chain long_chain last huge limit $deep deep_linked <<'PY'
import resource, subprocess, sys, time
program, folder = sys.argv[1:3]
before = 0.0
for name in sys.argv[3:]:
    for words in (["generate", "%s/%s.json" % (folder, name), "%s/%s_seed.json" % (folder, name), "--seed", "1"], ["check", "%s/%s.json" % (folder, name), "%s/%s_seed.json" % (folder, name)]):
        begin = time.time()
        run = subprocess.run([program] + words, stdout=subprocess.PIPE)
        passed = time.time() - begin
        usage = resource.getrusage(resource.RUSAGE_CHILDREN)
        spent, before = usage.ru_utime + usage.ru_stime - before, usage.ru_utime + usage.ru_stime
        print("%s, %s: status %d, %.2f s (processor %.2f s), %d MB at most so far, first line: %s" % (name, words[0], run.returncode, passed, spent, usage.ru_maxrss // 1024, run.stdout.split(b"\n")[0].decode()))
PY
if command -v rustc >/dev/null; then
  rustc -O bench/plain_fill.rs -o "$work/plain_fill"
  for words in "regions 1" "chain 1000" "chain 4000" "last 1000" "regions 5"; do
    "$work/plain_fill" $words
  done
  rustc -O bench/plain_taking_out.rs -o "$work/plain_taking_out"
  TIMEFORMAT="  processor %U s"
  for name in $deep; do
    time (cd "$work" && ./plain_taking_out "$name.plain")
  done
fi
if command -v valgrind >/dev/null; then
  for words in "generate $work/deep_thousand.json $work/counted.json --seed 1" "generate $work/deep_linked.json $work/counted.json --seed 1" "reach $work/deep_thousand.json"; do
    valgrind --tool=callgrind --callgrind-out-file="$work/callgrind.out" "$program" $words 2>"$work/counted" >/dev/null
    echo "${words%% *}, 50 slots: $(sed -n 's/.*Collected : //p' "$work/counted") instructions"
  done
fi
