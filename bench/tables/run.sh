#!/bin/sh
# How fast a table is with 100,000 rows, and how many bytes it takes beside each row.
# Wants `rt` and `python3`. It proves and builds the program of program/ in a scratch repository over copies of the crates that it
# stands on, and prints for each call how often it ran and its nanoseconds, the places before and after a million rows came and went, what the deletion of
# a node takes among ten and among 10,000, and for items and subscriptions, with COUNT rows (100000), the peak of memory beside the rows alone.
set -eu
here=$(cd "$(dirname "$0")" && pwd)
top=$here/../..
scratch=$(mktemp -d "${SCRATCH:-${TMPDIR:-/tmp}}/tables_bench.XXXXXX")
trap 'rm -rf "$scratch"' EXIT
for crate in ps_base ps_types ps_chains ps_rows ps_items ps_nodes ps_subs; do
    mkdir -p "$scratch/crates/$crate"
    for part in src specs proofs; do
        cp -r "$top/crates/$crate/$part" "$scratch/crates/$crate/"
    done
    grep "^$crate[ :]" "$top/crates.txt" >> "$scratch/crates.txt"
done
echo 'tables_bench: ps_base ps_types ps_chains ps_rows ps_items ps_nodes ps_subs serde_json json indexmap anyhow thiserror' >> "$scratch/crates.txt"
cp "$top/HANDLES" "$scratch/"
git init -q "$scratch"
program=$scratch/crates/tables_bench
mkdir -p "$program/src"
cp "$here/program/main.rt.txt" "$program/src/main.rt"
cd "$program"
rt run > "$scratch/log" 2>&1 || { tail -20 "$scratch/log"; exit 1; }
python3 "$here/measure.py" "${COUNT:-100000}"
