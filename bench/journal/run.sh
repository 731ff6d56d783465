#!/bin/sh
# The journal on a real file. Wants `rt` and `cc`. It proves and builds the program of program/ in a scratch repository over copies
# of the crates that it stands on, and prints
#   - appends a second for batches of 1, 10 and 100 entries, beside the raw limit of this disk: a loop in C with the same writes and
#     the same two fdatasync calls, by turns with the program, ROUNDS times each (5), medians, and their ratio;
#   - megabytes a second and peak memory over the file's size for opening a store of 100 MB;
#   - how often the program was killed while it appended (KILLS, 20), and the store opened with every append that was acknowledged,
#     and at most one more.
# The files lie in the folder STORE (a new one under /var/tmp), which is on the disk that is measured.
set -eu
here=$(cd "$(dirname "$0")" && pwd)
top=$here/../..
rounds=${ROUNDS:-5}
kills=${KILLS:-20}
# Beside a checkout whose crates are proved, a scratch repository begins with what was kept there: SCRATCH names the folder for it.
scratch=$(mktemp -d "${SCRATCH:-${TMPDIR:-/tmp}}/journal_bench.XXXXXX")
store=${STORE:-$(mktemp -d /var/tmp/journal.XXXXXX)}
trap 'rm -rf "$scratch" "$store"' EXIT

crates="ps_base ps_types ps_model ps_disk ps_wire ps_record ps_journal"
for crate in $crates; do
    mkdir -p "$scratch/crates/$crate"
    for part in src specs proofs; do
        cp -r "$top/crates/$crate/$part" "$scratch/crates/$crate/"
    done
    grep "^$crate[ :]" "$top/crates.txt" >> "$scratch/crates.txt"
done
echo 'journal_bench: ps_base ps_types ps_model ps_disk ps_wire ps_record ps_journal serde_json json' >> "$scratch/crates.txt"
cp "$top/HANDLES" "$scratch/"
git init -q "$scratch"
program=$scratch/crates/journal_bench
mkdir -p "$program/src"
for name in main batches; do
    cp "$here/program/$name.rt.txt" "$program/src/$name.rt"
done
if [ -d "$here/program/proofs" ]; then
    (cd "$here/program/proofs" && find . -name '*.txt') | while read -r file; do
        mkdir -p "$program/proofs/$(dirname "$file")"
        cp "$here/program/proofs/$file" "$program/proofs/${file%.txt}"
    done
fi
cc -O2 -o "$scratch/limit" "$here/limit.c"
(cd "$program" && rt run -- open "$store/none") > "$scratch/log" 2>&1 || { tail -20 "$scratch/log"; exit 1; }
bench=$program/out/journal_bench

median() { sort -n | awk '{ x[NR] = $1 } END { print x[int((NR + 1) / 2)] }'; }
rate() { awk '{ printf "%.1f\n", $1 * 1e9 / $3 }'; }

echo "entries  journal/s  limit/s  ratio"
for entries in 1 10 100; do
    times=$((2000 / (entries < 10 ? 1 : 2)))
    round=0
    : > "$scratch/journal"; : > "$scratch/limits"
    while [ "$round" -lt "$rounds" ]; do
        rm -f "$store/a" "$store/b"
        "$bench" append "$store/a" "$entries" "$times" > "$scratch/line"
        rate < "$scratch/line" >> "$scratch/journal"
        "$scratch/limit" "$store/b" "$(awk '{ print $2 }' "$scratch/line")" "$times" | rate >> "$scratch/limits"
        round=$((round + 1))
    done
    awk -v e="$entries" -v a="$(median < "$scratch/journal")" -v b="$(median < "$scratch/limits")" \
        'BEGIN { printf "%7d  %9.0f  %7.0f  %.3f\n", e, a, b, a / b }'
done

rm -f "$store"/*
"$bench" append "$store/big" 1000 360 > /dev/null
size=$(stat -c %s "$store/big")
for round in 1 2 3; do
    /usr/bin/env python3 "$here/peak.py" "$bench" open "$store/big"
done | awk -v size="$size" '{ printf "open of %.1f MB: %.1f MB/s, peak memory %.2f times the file\n", size / 1e6, size / 1e6 / ($3 / 1e9), $4 * 1024 / size }'

rm -f "$store"/*
killed=0
while [ "$killed" -lt "$kills" ]; do
    rm -f "$store/k"
    "$bench" forever "$store/k" 3 > "$scratch/told" &
    pid=$!
    sleep "0.$((1 + killed % 9))"
    kill -9 "$pid"
    wait "$pid" 2> /dev/null || true
    told=$(grep -c . "$scratch/told" || true)
    # A last line that was cut short was acknowledged too.
    held=$("$bench" open "$store/k" | awk '{ print $1 / 3 }')
    if ! awk -v t="$told" -v h="$held" 'BEGIN { exit !(t <= h && h <= t + 1) }'; then
        echo "after a kill: $told acknowledged, $held held"
        exit 1
    fi
    killed=$((killed + 1))
done
echo "killed $killed times while it appended: each acknowledged append was there, and at most one more"
