#!/bin/bash
# Times `agent receive` beside a plain reader in Rust that prints the same lines, over 100 MB of frames with bodies of
# 2, 64 and 65,536 bytes. Each time is the least of three runs, in seconds; the ratio is ours to the reader's.
set -eu
top=$(cd "$(dirname "$0")/.." && pwd)
work=$(mktemp -d)
trap 'rm -rf "$work"' EXIT
rustc -O -o "$work/frames" "$top/bench/frames.rs"
"$top/agent" receive </dev/null >/dev/null

least() { # of three runs of the command over the input
    for _ in 1 2 3; do
        /usr/bin/env bash -c 'TIMEFORMAT=%R; time "$@" <"$0" >/dev/null' "$work/input" "$@" 2>&1
    done | sort -n | head -n 1
}

for body in 2 64 65536; do
    "$work/frames" write "$body" "${1:-100000000}" >"$work/input"
    "$work/frames" read <"$work/input" | md5sum >"$work/theirs"
    "$top/agent" receive <"$work/input" | md5sum | diff - "$work/theirs"
    theirs=$(least "$work/frames" read)
    ours=$(least "$top/crates/agent/out/agent" receive)
    echo "body=$body agent=$ours rust=$theirs ratio=$(awk "BEGIN { printf \"%.2f\", $ours / $theirs }")"
done
