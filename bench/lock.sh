#!/usr/bin/env bash
# Prints, for 1, 4 and 32 workers that act on one small value under the lock, the microseconds and the context switches of an act, and how busy the processors were.
# Run after `rt run` in crates/mw_bench, which leaves the program.
set -eu
cd "$(dirname "$0")/.."
program=$PWD/crates/mw_bench/out/mw_bench
[ -x "$program" ] || { echo "build it first: (cd crates/mw_bench && rt run)" >&2; exit 1; }
python3 - "$program" <<'PY'
import os, subprocess, sys
program = sys.argv[1]
for workers, times in ((1, 1000000), (4, 200000), (32, 10000)):
    child = subprocess.Popen([program, "lock", str(workers), str(times)], stdout=subprocess.PIPE, text=True)
    calls, passed = [int(line) for line in child.stdout.read().split()]
    used = os.wait4(child.pid, 0)[2]
    child.returncode = 0
    switches = used.ru_nvcsw + used.ru_nivcsw
    busy = (used.ru_utime + used.ru_stime) * 1e6
    print("%2d worker(s): %7.3f us an act, %6.3f context switches, %7.3f us of the processors" % (workers, passed / calls, switches / calls, busy / calls))
PY
