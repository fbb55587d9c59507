#!/bin/bash
# Measures what strangers can make a server keep: the most memory of one link whose client was not accepted, for a first text of its
# handshake that makes a large tree of few bytes, as long as a text may be and longer, and for a frame of another type; and of 100 such
# links that wait at once. The first line is the program with a link that sends nothing but a short text, and the line without a link is
# what the program holds of the frame of 200 MB itself.
set -eu
top=$(cd "$(dirname "$0")/.." && pwd)
(cd "$top/crates/bench" && rt run >/dev/null 2>&1)

python3 - "$top/crates/bench/out/bench" <<'PYTHON'
import os, subprocess, sys

bench = sys.argv[1]

def most(*words):
    child = subprocess.Popen([bench, *map(str, words)], stdout=subprocess.PIPE)
    line = child.stdout.read().decode().strip()
    _, status, usage = os.wait4(child.pid, 0)
    if status != 0:
        sys.exit("the load failed")
    print("%s: %.1f MB" % (line, usage.ru_maxrss / 1024))

most("strangers", 1, 10, 0)
most("strangers", 1, 61000, 0)
most("strangers", 1, 280000, 0)
most("passed", 0, 11700000, 1)
most("passed", 1, 11700000, 1)
most("strangers", 100, 61000, 1)
most("passed", 100, 61000, 1)
PYTHON
