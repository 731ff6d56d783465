#!/bin/sh
# Megabytes a second at which lines are read: as JSON values, as trees (`read_tree`), and as requests (`read_tree` and
# `read_request`), beside serde_json of Rust, which reads the same bytes into its `Value`.
# Wants `rt`, `python3`, `cargo` and Debian's librust-serde-json-dev. It proves and builds the program of program/ in a scratch
# repository over copies of the crates that it stands on, and runs both programs by turns, each ROUNDS times (3), on LINES lines
# (20000): creates with forms, and publishes of payloads of 200 to 4,000 bytes. It prints medians and their ratios to serde_json.
set -eu
here=$(cd "$(dirname "$0")" && pwd)
top=$here/../..
rounds=${ROUNDS:-3}
# Beside a checkout whose crates are proved, a scratch repository begins with what was kept there: SCRATCH names the folder for it.
scratch=$(mktemp -d "${SCRATCH:-${TMPDIR:-/tmp}}/reading_bench.XXXXXX")
trap 'rm -rf "$scratch"' EXIT

for crate in ps_base ps_types ps_model ps_wire ps_forms ps_request; do
    mkdir -p "$scratch/crates/$crate"
    for part in src specs proofs; do
        cp -r "$top/crates/$crate/$part" "$scratch/crates/$crate/"
    done
    grep "^$crate[ :]" "$top/crates.txt" >> "$scratch/crates.txt"
done
echo 'reading_bench: ps_base ps_types ps_wire ps_request serde_json json' >> "$scratch/crates.txt"
cp "$top/HANDLES" "$scratch/"
git init -q "$scratch"
program=$scratch/crates/reading_bench
mkdir -p "$program/src" "$scratch/rust/src" "$scratch/rust/.cargo"
cp "$here/program/main.rt.txt" "$program/src/main.rt"
cp "$here/rust/Cargo.toml" "$scratch/rust/"
cp "$here/rust/main.rs" "$scratch/rust/src/"
cat > "$scratch/rust/.cargo/config.toml" <<'END'
[source.crates-io]
replace-with = "debian"
[source.debian]
directory = "/usr/share/cargo/registry"
END
(cd "$scratch/rust" && cargo build --release --offline) > "$scratch/log" 2>&1 || { tail -20 "$scratch/log"; exit 1; }

python3 "$here/corpus.py" "${LINES:-20000}" > "$scratch/lines"
(cd "$program" && rt run -- "$scratch/lines") > "$scratch/log" 2>&1 || { tail -20 "$scratch/log"; exit 1; }
round=0
while [ "$round" -lt "$rounds" ]; do
    "$program/out/reading_bench" "$scratch/lines" >> "$scratch/times"
    "$scratch/rust/target/release/values" "$scratch/lines" | sed 's/^/rust_/' >> "$scratch/times"
    round=$((round + 1))
done

# every line must be read by each
if [ "$(awk '{ print $3 }' "$scratch/times" | sort -u | wc -l)" != 1 ]; then
    echo "not all lines were read by each:"
    cat "$scratch/times"
    exit 1
fi
median() { awk -v which="$1" '$1 == which { print $2 * 1e3 / $4 }' "$scratch/times" | sort -n | awk '{ x[NR] = $1 } END { print x[int((NR + 1) / 2)] }'; }
rust=$(median rust_values)
echo "what            MB/s  ratio to serde_json of Rust"
printf 'serde_json   %7.1f  1\n' "$rust"
for what in values trees requests; do
    awk -v what="$what" -v rate="$(median "$what")" -v rust="$rust" 'BEGIN { printf "%-12s %7.1f  %.3f\n", what, rate, rate / rust }'
done
