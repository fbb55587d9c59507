#!/bin/bash
# Times the registry: 100,000 sessions that are admitted, lost, reconnected and closed; the cost of one such session behind 1,000,
# 10,000 and 100,000 sessions that are over; and the memory of a session that is over, with its two entries and its kept record.
set -eu
top=$(cd "$(dirname "$0")/.." && pwd)
(cd "$top/crates/bench" && rt run >/dev/null 2>&1)
bench=$top/crates/bench/out/bench

python3 - "$bench" <<'PYTHON'
import os, subprocess, sys, time

bench = sys.argv[1]

def run(ended, twice):
    """The least time of three runs in seconds, and the most memory in bytes."""
    least, most = float("inf"), 0
    for _ in range(3):
        start = time.perf_counter()
        child = subprocess.Popen([bench, "registry", str(ended), str(twice)], stdout=subprocess.DEVNULL)
        _, status, usage = os.wait4(child.pid, 0)
        if status != 0:
            sys.exit("the load failed")
        least = min(least, time.perf_counter() - start)
        most = max(most, usage.ru_maxrss * 1024)
    return least, most

print("100000 sessions that come twice: %.2f s" % run(0, 100000)[0])
for ended in (1000, 10000, 100000):
    before = run(ended, 0)[0]
    after = run(ended, 20000)[0]
    print("behind %d sessions that are over: %.2f us a session that comes twice" % (ended, (after - before) / 20000 * 1e6))
print("%d bytes a session that is over" % ((run(200000, 0)[1] - run(100000, 0)[1]) / 100000))
PYTHON
