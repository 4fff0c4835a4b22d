#!/bin/sh
# How many instructions a line of a source file takes to be cut and to be read, without quotation marks and with them, and
# beside that an ordinary body in Rust over the same file. It wants valgrind, and rustc for the second.
set -e
top="$(cd "$(dirname "$0")/.." && pwd)"
lines=10000
folder="$(mktemp -d)"
trap 'rm -rf "$folder"' EXIT

# The instructions of a run of this program with these words.
instructions() {
    valgrind --tool=callgrind --callgrind-out-file="$folder/calls" "$@" 2>&1 | sed -n 's/.*Collected : //p'
}

# What a line takes in each step, by the differences of the runs.
table() {
    for marks in plain quoted; do
        make="$(instructions "$2" make $marks)"
        cut="$(instructions "$2" cut $marks)"
        read="$(instructions "$2" read $marks)"
        echo "$1, $marks: cut $(((cut - make) / lines)), read $(((read - cut) / lines))"
    done
}

cd "$top/crates/bench_lines"
rt run > "$folder/run" 2>&1 || { cat "$folder/run" >&2; exit 1; }
table jet out/bench_lines
if command -v rustc > /dev/null; then
    rustc --edition 2021 -O -o "$folder/plain" "$top/bench/plain_lines.rs"
    table "plain Rust" "$folder/plain"
fi
