#!/bin/bash
# Measures the memory of 1,000 sessions that were lost, and of 1,000 that ended, each after a message of 1 MB; and times a tick over 100
# sessions that have not ended, beside none and 100,000 that have.
set -eu
top=$(cd "$(dirname "$0")/.." && pwd)
(cd "$top/crates/bench" && rt run >/dev/null 2>&1)

python3 - "$top/crates/bench/out/bench" <<'PYTHON'
import os, subprocess, sys, time

bench = sys.argv[1]

def run(*words):
    """The least time of three runs in seconds, the most memory in MB, and the line."""
    least, most = float("inf"), 0
    for _ in range(3):
        start = time.perf_counter()
        child = subprocess.Popen([bench, *map(str, words)], stdout=subprocess.PIPE)
        line = child.stdout.read().decode().strip()
        _, status, usage = os.wait4(child.pid, 0)
        if status != 0:
            sys.exit("the load failed")
        least = min(least, time.perf_counter() - start)
        most = max(most, usage.ru_maxrss / 1024)
    return least, most, line

for fate in ("lost", "ended"):
    for sessions in (1, 1000):
        _, most, line = run(fate, sessions, 1000000)
        print("%s: %.1f MB" % (line, most))
for ended in (0, 100000):
    none = run("ticks", ended, 0)[0]
    ticks = run("ticks", ended, 10000)[0]
    print("%d sessions that have ended: %.2f us a tick" % (ended, (ticks - none) / 10000 * 1e6))
PYTHON
