#!/bin/bash
# Times the channel server: 1,000,000 calls that come and are answered in a random order, where 1,000, 10,000 and 100,000 of them are
# open at once.
set -eu
top=$(cd "$(dirname "$0")/.." && pwd)
(cd "$top/crates/bench" && rt run >/dev/null 2>&1)

python3 - "$top/crates/bench/out/bench" <<'PYTHON'
import subprocess, sys, time

bench = sys.argv[1]

for count in (1000, 10000, 100000):
    rounds = 1000000 // count
    least = float("inf")
    for _ in range(3):
        start = time.perf_counter()
        printed = subprocess.run([bench, "channels", str(count), str(rounds)], check=True, capture_output=True).stdout
        least = min(least, time.perf_counter() - start)
    if b"answered=1000000" not in printed:
        sys.exit("not each call was answered")
    print("%d open at once: %.2f us a call" % (count, least))
PYTHON
