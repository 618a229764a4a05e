#!/usr/bin/env bash
# Reads a full readings sheet by the proved reader and by the host's plain one, so many times each. Prints the time of the
# fastest reading of both, their ratio, and how many instructions the proved one takes for a byte, by function.
set -euo pipefail
cd "$(dirname "$0")/.."
times=${1:-20000}
scratch=$(mktemp -d)
trap 'rm -rf "$scratch"' EXIT

(cd crates/reading_speed && rt run) >"$scratch/check" 2>&1
cargo build --quiet --release --offline --manifest-path host/Cargo.toml
crates/reading_speed/out/reading_speed "$times" >"$scratch/ours" 2>"$scratch/ours.time"
host/target/release/host plain_sheet "$times" >"$scratch/plain" 2>"$scratch/plain.time"
cmp "$scratch/ours" "$scratch/plain"
cat "$scratch/ours"
ours=$(cut -d, -f2 "$scratch/ours.time")
plain=$(cut -d, -f2 "$scratch/plain.time")
bytes=$(sed -n 's/^bytes,//p' "$scratch/ours")
echo "fastest reading: ours $ours ns, plain Rust $plain ns"
awk -v ours="$ours" -v plain="$plain" 'BEGIN { printf "ours / plain Rust, in sheets per second: %.2f\n", plain / ours }'

if ! command -v valgrind >"$scratch/where"; then
    echo "instructions are not counted: valgrind is not installed"
    exit 0
fi
valgrind --quiet --tool=callgrind --callgrind-out-file="$scratch/counts" crates/reading_speed/out/reading_speed 100 >"$scratch/run" 2>&1
echo "instructions for a byte, by function (101 readings and the making of the sheet):"
callgrind_annotate "$scratch/counts" | awk -v bytes="$((101 * bytes))" '
    /^ *[0-9,]+ \(/ && !/PROGRAM TOTALS/ {
        count = $1; gsub(/,/, "", count)
        name = $0; sub(/^ *[0-9,]+ \([^)]*\) */, "", name); sub(/^[^:]*:/, "", name); sub(/ \[.*/, "", name)
        if (count / bytes >= 0.05) printf "%6.2f  %s\n", count / bytes, name
    }'
