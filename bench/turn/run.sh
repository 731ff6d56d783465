#!/bin/sh
# Entries a second through the turn, and through the state's side of a twin, by 1, 2, 4 and 16 threads, beside a `std` Mutex of Rust in the same run.
# Wants `rt` and `rustc`. It proves and builds the program of program/ in a scratch repository, over copies of crates/ps_turn and crates/ps_twin,
# and then runs both programs by turns, each ROUNDS times (3). It prints the median rates and their ratios.
set -eu
here=$(cd "$(dirname "$0")" && pwd)
top=$here/../..
rounds=${ROUNDS:-3}
scratch=$(mktemp -d)
trap 'rm -rf "$scratch"' EXIT

program=$scratch/crates/turn_bench
mkdir -p "$program/src" "$program/specs"
for crate in ps_turn ps_twin; do
    mkdir -p "$scratch/crates/$crate"
    for part in src specs proofs; do
        cp -r "$top/crates/$crate/$part" "$scratch/crates/$crate/"
    done
done
cp "$top/HANDLES" "$scratch/"
grep -E '^(ps_turn|ps_twin) ' "$top/crates.txt" > "$scratch/crates.txt"
echo 'turn_bench: ps_turn ps_twin atomic_table' >> "$scratch/crates.txt"
git init -q "$scratch"
for name in main visits twins; do
    cp "$here/program/$name.rt.txt" "$program/src/$name.rt"
done
echo 'pub mod Ready' > "$program/specs/Lib.antt"
cp "$here/program/ready.antt.txt" "$program/specs/Ready.antt"
for name in visits/visit_once visits/visit_times visits/work_all twins/visit_once twins/visit_times twins/work_all; do
    mkdir -p "$program/proofs/$name"
done
cp "$here/program/visit_once.antt.txt" "$program/proofs/visits/visit_once/Invariants.antt"
cp "$here/program/visit_times.antt.txt" "$program/proofs/visits/visit_times/Invariants.antt"
cp "$here/program/work_all.antt.txt" "$program/proofs/visits/work_all/Answers.antt"
cp "$here/program/twin_once.antt.txt" "$program/proofs/twins/visit_once/Invariants.antt"
cp "$here/program/twin_times.antt.txt" "$program/proofs/twins/visit_times/Invariants.antt"
cp "$here/program/twin_all.antt.txt" "$program/proofs/twins/work_all/Answers.antt"

rustc -O -o "$scratch/mutex" "$here/mutex.rs"
if ! (cd "$program" && rt run) > "$scratch/log" 2>&1; then
    tail -20 "$scratch/log"
    exit 1
fi
round=0
while [ "$round" -lt "$rounds" ]; do
    "$program/out/turn_bench" >> "$scratch/times"
    "$scratch/mutex" | sed 's/^/mutex /' >> "$scratch/times"
    round=$((round + 1))
done

echo "threads  turn/s    twin/s    mutex/s   turn/mutex  twin/mutex"
for threads in 1 2 4 16; do
    for which in turn twin mutex; do
        awk -v which="$which" -v threads="$threads" '$1 == which && $2 == threads { printf "%.0f\n", $3 * 1e9 / $4 }' "$scratch/times" \
            | sort -n | awk '{ rate[NR] = $1 } END { print rate[int((NR + 1) / 2)] }' > "$scratch/$which.rate"
    done
    awk -v threads="$threads" -v turn="$(cat "$scratch/turn.rate")" -v twin="$(cat "$scratch/twin.rate")" -v mutex="$(cat "$scratch/mutex.rate")" \
        'BEGIN { printf "%7d  %8d  %8d  %8d  %10.4f  %10.4f\n", threads, turn, twin, mutex, turn / mutex, twin / mutex }'
done
