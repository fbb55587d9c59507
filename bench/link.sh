#!/bin/bash
# Times a served connection: 10 MB and 100 MB of messages of 1,000 bytes to an extension host, in pieces of 65,536 and of 100 bytes. The time
# in which the pieces are made is in it; so the time for one byte is to be the same at 10 MB and at 100 MB.
set -eu
top=$(cd "$(dirname "$0")/.." && pwd)
(cd "$top/crates/bench" && rt run >/dev/null 2>&1)

python3 - "$top/crates/bench/out/bench" <<'PYTHON'
import subprocess, sys, time

bench = sys.argv[1]

for size in (65536, 100):
    for messages in (10000, 100000):
        least = float("inf")
        for _ in range(3):
            start = time.perf_counter()
            printed = subprocess.run([bench, "link", str(messages), str(size)], check=True, capture_output=True).stdout
            least = min(least, time.perf_counter() - start)
        if b"jobs=%d" % messages not in printed:
            sys.exit("not each message became a job")
        print("%d MB in pieces of %d: %.2f s, %.1f ns a byte" % (messages // 1000, size, least, least * 1e9 / (messages * 1013)))
PYTHON
