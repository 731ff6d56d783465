#!/bin/sh
# The program over its store. Wants `rt`, `cc` and `python3`. It proves and builds crates/pubsubd where it stands, or takes PROGRAM, and prints
#   - publishes a second, one at a time, over a file on the disk of the folder STORE (a new one under /var/tmp), beside the raw limit of that disk: a
#     loop in C with the same writes and the same two fdatasync calls (bench/journal/limit.c), by turns, ROUNDS times each (3), medians and their ratio;
#   - seconds and peak memory for opening a store of CHANGES nodes, publishes, subscriptions, and publishes with notices that ten were handed (10000 100000), and their ratio. That store is made and lies in memory (FAST, /dev/shm).
# With KILLS it kills the program that many times while it serves (tests/kill) on the disk of STORE.
set -eu
here=$(cd "$(dirname "$0")" && pwd)
top=$here/../..
scratch=$(mktemp -d "${SCRATCH:-${TMPDIR:-/tmp}}/store_bench.XXXXXX")
store=${STORE:-$(mktemp -d /var/tmp/store.XXXXXX)}
fast=$(mktemp -d "${FAST:-/dev/shm}/store.XXXXXX")
trap 'rm -rf "$scratch" "$store" "$fast"' EXIT
program=${PROGRAM:-$top/crates/pubsubd/out/pubsubd}
if [ -z "${PROGRAM:-}" ]; then
    : > "$scratch/none"
    if ! (cd "$top/crates/pubsubd" && rt run -- serve --service pubsub.example --store "$scratch/store" a.example "$scratch/none" "$scratch/nowhere") > "$scratch/log" 2>&1; then
        tail -20 "$scratch/log"
        exit 1
    fi
fi
cc -O2 -o "$scratch/limit" "$here/../journal/limit.c"
python3 "$here/measure.py" "$program" "$scratch/limit" "$store" "$fast"
if [ -n "${KILLS:-}" ]; then
    python3 "$top/tests/kill/kill.py" "$program" "$KILLS" "$store"
fi
