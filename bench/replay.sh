#!/bin/bash
# Times `agent soak` with 100,000 steps, and `agent replay` of 25,000, 50,000 and 100,000 messages that are said, moved in one piece,
# taken, and acknowledged once at the end. Each time is in seconds.
set -eu
top=$(cd "$(dirname "$0")/.." && pwd)
work=$(mktemp -d)
trap 'rm -rf "$work"' EXIT
"$top/agent" receive </dev/null >/dev/null
agent=$top/crates/agent/out/agent

"$agent" soak 1 100000 >"$work/first"
/usr/bin/env bash -c 'TIMEFORMAT="soak 1 100000: %R"; time "$@"' soak "$agent" soak 1 100000 >"$work/second"
diff "$work/first" "$work/second"
cat "$work/second"

for says in 25000 50000 100000; do
    {
        printf 'link\nbegin A 1 0\nbegin B 1 0\n'
        yes 'say A 6869' | head -n "$says"
        printf 'write A *\nread B 1 *\ndrain B\nat 2005\ntick B\nwrite B *\nread A 1 *\ndrain A\n'
    } >"$work/script"
    /usr/bin/env bash -c 'TIMEFORMAT="'"$says"' says: %R"; time "$@" <"$0" | tail -n 1' "$work/script" "$agent" replay
done
