#!/bin/sh
# The program over several streams at once: publishes a second beside the disk's limit, notices, latencies, lines that commit nothing, and peak memory.
# Usage: run.sh [publishes|notices|latency|nothing|idle|memory].. All of them where none is named. Wants `rt`, `python3` and `cc`. It proves and builds
# crates/pubsubd where it stands, unless PROGRAM names a program.
#   publishes  one publish at a time on each of STREAMS (1 2 4 16) streams, SECONDS (3) each, over a file in STORE, beside two syncs a publish; and the
#              entries that a frame holds and the syncs that a publish takes, told by the store's bytes
#   queued     the same where each stream has 2,000 publishes at hand
#   notices    notices a second, from one publish's line to the last byte of the last notice in a pipe, to AUDIENCE (2000 65536) subscribers
#   latency    from a publish's line to its notice's line, on another stream: median and 99th of 100
#   trip       one publish at a time on one stream, until its reply is here: microseconds over a file in FAST and in STORE, of these the processor's in the program's
#              own code and in the system's, how often its threads sleep, the two syncs alone, and what `cat` takes for the same line
#   nothing    lines a second that commit nothing, on 1, 2, 4 and 16 streams
#   idle       processors that the program keeps busy while nothing is written to its streams
#   memory     peak memory (VmHWM) with 10,000 nodes, 100,000 items and 65,536 subscriptions (ROWS divides these, where the machine is small)
# STORE is a folder on a disk, FAST one in memory; the figures of `nothing`, `idle` and `memory` are over FAST. Of `publishes` and `notices` medians of ROUNDS (3) are
# printed, of 10,000 subscribers and more one round.
set -eu
here=$(cd "$(dirname "$0")" && pwd)
top=$here/../..
scratch=$(mktemp -d "${TMPDIR:-/tmp}/streams_bench.XXXXXX")
store=$(mktemp -d "${STORE:-${TMPDIR:-/tmp}}/streams_store.XXXXXX")
fast=$(mktemp -d "${FAST:-/dev/shm}/streams_fast.XXXXXX")
trap 'rm -rf "$scratch" "$store" "$fast"' EXIT
program=${PROGRAM:-$top/crates/pubsubd/out/pubsubd}
if [ -z "${PROGRAM:-}" ]; then
    : > "$scratch/none"
    if ! (cd "$top/crates/pubsubd" && rt run -- serve --service pubsub.example --store "$scratch/s" a.example "$scratch/none" "$scratch/nowhere") > "$scratch/log" 2>&1; then
        tail -20 "$scratch/log"
        exit 1
    fi
fi
cc -O2 -o "$scratch/limit" "$here/../journal/limit.c"
python3 "$here/measure.py" "$program" "$scratch/limit" "$store" "$fast" "$@"
