#!/bin/sh
# What an audit of a store costs. Takes the PROGRAM (crates/pubsubd/out/pubsubd), and prints seconds and peak memory of opening a store of ENTRIES
# publishes (1000000) over ITEMS items (10000), and of explain and readers over it. The store lies in memory (FAST, /dev/shm).
set -eu
here=$(cd "$(dirname "$0")" && pwd)
fast=$(mktemp -d "${FAST:-/dev/shm}/audit.XXXXXX")
trap 'rm -rf "$fast"' EXIT
python3 "$here/measure.py" "${PROGRAM:-$here/../../crates/pubsubd/out/pubsubd}" "$fast"
