#!/bin/sh
# Requests a second of the program beside a plain loop in Python over the same bytes, and the program's peak memory.
# Usage: run.sh [create|publish|access|many|home|told|profile|cost]. Wants `rt` and `python3`. It proves and builds crates/pubsubd where it stands.
#   create   each line makes another node; LINES (1000 10000 100000)
#   publish  LINES publishes to NODES nodes (1 10000), which keep 10 items each, and then a retrieval of every node
#   access   REQUESTS (1000) of each kind over NODES nodes (10 1000 10000), and at one node with SUBSCRIPTIONS (10 10000)
#   many     REQUESTS (1000) of each kind with few rows and with many: what many.py says
#   home     the same at accounts, of ACCOUNTS (10000): what home.py says
#   told     the notices of a publish, by how many hear of it: what told.py says
#   profile  where the instructions go as LINES (20000) lines each make a node; wants `valgrind` too
#   cost     what a line takes, by its kind, in instructions and allocations, over LINES (1000) of each; wants `valgrind` too. Where `cargo` and Debian's
#            librust-serde-json-dev are there, beside Rust's serde_json, which reads the same lines into its Value and prints them
# The first three are run ROUNDS times (3), by turns; medians are printed. The store stands in SCRATCH too: on a disk each change waits for it, so name a
# folder in memory, as /dev/shm, where the program's own work is to be measured.
set -eu
here=$(cd "$(dirname "$0")" && pwd)
top=$here/../..
scratch=$(mktemp -d "${SCRATCH:-${TMPDIR:-/tmp}}/serve_bench.XXXXXX")
trap 'rm -rf "$scratch"' EXIT
program=${PROGRAM:-$top/crates/pubsubd/out/pubsubd}
if [ -z "${PROGRAM:-}" ]; then
    : > "$scratch/none"
    if ! (cd "$top/crates/pubsubd" && rt run -- serve --service pubsub.example --store "$scratch/store" a.example "$scratch/none" "$scratch/nowhere") > "$scratch/log" 2>&1; then
        tail -20 "$scratch/log"
        exit 1
    fi
fi
if [ "${1:-}" = cost ] && [ -d /usr/share/cargo/registry ] && command -v cargo > "$scratch/log"; then
    mkdir -p "$scratch/rust/src" "$scratch/rust/.cargo"
    cp "$here/rust/Cargo.toml" "$scratch/rust/"
    cp "$here/rust/main.rs" "$scratch/rust/src/"
    printf '[source.crates-io]\nreplace-with = "debian"\n[source.debian]\ndirectory = "/usr/share/cargo/registry"\n' > "$scratch/rust/.cargo/config.toml"
    (cd "$scratch/rust" && cargo build --release --offline) > "$scratch/log" 2>&1 && export VALUES="$scratch/rust/target/release/values"
fi
case "${1:-create}" in
cost) python3 "$here/cost.py" "$program" "$scratch" ;;
profile) python3 "$here/profile.py" "$program" "$scratch" ;;
many) python3 "$here/many.py" "$program" "$scratch" ;;
home) python3 "$here/home.py" "$program" "$scratch" ;;
told) python3 "$here/told.py" "$program" "$scratch" ;;
*) python3 "$here/measure.py" "${1:-create}" "$program" "$scratch" ;;
esac
