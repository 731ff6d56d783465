#!/bin/sh
# What compacting a store costs. Takes the PROGRAM (crates/pubsubd/out/pubsubd), and prints seconds, peak memory and bytes
# of a store of ENTRIES publishes (1000000) over ITEMS items (10000), before and after. The stores lie in memory (FAST, /dev/shm).
set -eu
here=$(cd "$(dirname "$0")" && pwd)
fast=$(mktemp -d "${FAST:-/dev/shm}/compact.XXXXXX")
trap 'rm -rf "$fast"' EXIT
python3 "$here/measure.py" "${PROGRAM:-$here/../../crates/pubsubd/out/pubsubd}" "$fast"
