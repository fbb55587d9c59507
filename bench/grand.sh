#!/bin/bash
# Times grand runs: 5,000 and 10,000 calls that are made and answered by 100 clients in turn, and 50,000 and 100,000 by one. The time for one
# call is to be the same for both numbers.
set -eu
top=$(cd "$(dirname "$0")/.." && pwd)
"$top/agent" grand </dev/null >/dev/null

python3 - "$top/crates/agent/out/agent" <<'PYTHON'
import subprocess, sys, time

agent = sys.argv[1]

def script(clients, calls):
    lines = []
    for n in range(1, clients + 1):
        lines.append("client management t%d\nstep %d\nlinked %d\n" % (n, n, n))
        lines.append(("up %d *\ndown %d *\ndrain %d\n" % (n, n, n)) * 4)
        lines.append("up %d *\nidle %d\n" % (n, n))
    for _ in range(calls // clients):
        for n in range(1, clients + 1):
            lines.append("text %d tools echo 6869\nup %d *\nwork 1\nidle %d\ndown %d *\ndrain %d\n" % (n, n, n, n, n))
    return "".join(lines).encode()

for clients, calls in ((100, 5000), (100, 10000), (1, 50000), (1, 100000)):
    text = script(clients, calls)
    least = float("inf")
    for _ in range(3):
        start = time.perf_counter()
        printed = subprocess.run([agent, "grand"], input=text, check=True, capture_output=True).stdout
        least = min(least, time.perf_counter() - start)
    if printed.count(b"settled") != calls:
        sys.exit("not each call settled")
    print("%d clients, %d calls: %.2f s, %.1f us a call" % (clients, calls, least, least * 1e6 / calls))
PYTHON
