#!/bin/bash
# Times the hub: calls that come over the links of 100 and of 10,000 sessions in turn and are answered, 1,000,000 in all, with the time of
# making the sessions taken off.
set -eu
top=$(cd "$(dirname "$0")/.." && pwd)
(cd "$top/crates/bench" && rt run >/dev/null 2>&1)

python3 - "$top/crates/bench/out/bench" <<'PYTHON'
import subprocess, sys, time

bench = sys.argv[1]

def least(sessions, rounds):
    best = float("inf")
    for _ in range(3):
        start = time.perf_counter()
        printed = subprocess.run([bench, "sessions", str(sessions), str(rounds)], check=True, capture_output=True).stdout
        best = min(best, time.perf_counter() - start)
    if b"answered=%d" % (sessions * rounds) not in printed:
        sys.exit("not each call was answered")
    return best

for sessions in (100, 10000):
    rounds = 1000000 // sessions
    made = least(sessions, 0)
    print("%d sessions: %.2f us a call" % (sessions, least(sessions, rounds) - made))
PYTHON
