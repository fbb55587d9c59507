#!/bin/bash
# Times values that are written and read again, beside the same in plain Rust: 20 rounds of an array of 100,000 small values, and 5
# rounds of a buffer of 100,000,000 bytes.
set -eu
top=$(cd "$(dirname "$0")/.." && pwd)
work=$(mktemp -d)
trap 'rm -rf "$work"' EXIT
(cd "$top/crates/bench" && rt run >/dev/null 2>&1)
rustc -O -o "$work/plain" "$top/bench/values.rs"

python3 - "$top/crates/bench/out/bench" "$work/plain" <<'PYTHON'
import subprocess, sys, time

ours, plain = sys.argv[1:]

def run(command):
    """What it prints, and the least time of three runs in seconds."""
    least = float("inf")
    for _ in range(3):
        start = time.perf_counter()
        printed = subprocess.run(command, check=True, capture_output=True).stdout
        least = min(least, time.perf_counter() - start)
    return printed, least

for what, words in (("array of 100000", ["100000", "0", "20"]), ("buffer of 100000000", ["0", "100000000", "5"])):
    (one, a), (other, b) = run([ours, "values"] + words), run([plain] + words)
    if one != other:
        sys.exit("the programs print different lines")
    print("%s: %.3f s, plain Rust %.3f s, ratio %.2f" % (what, a, b, a / b))
PYTHON
