#!/bin/sh
# What an event costs in a frame vertex, frames and rows in a combine vertex, and a row in ordered rows, in instructions, and
# beside that in ordinary Rust: those that a run over 1,000,000 events or rows more takes more, divided by these. In a combine
# vertex each row has a frame of its own (`each`), or one with five others (`sixth`). It wants valgrind, and rustc for the second.
bench="$(cd "$(dirname "$0")" && pwd)"
cd "$bench/../crates/bench_windows" && rt run > /dev/null || exit 1
folder="$(mktemp -d)"
trap 'rm -rf "$folder"' EXIT
taken() { valgrind --tool=callgrind --callgrind-out-file=/dev/null "$@" 2>&1 | sed -n 's/.*Collected : //p'; }
# What one more takes: a program and its words, up to where it goes, and farther, and how many events or rows that is more.
each() { less=$(taken $1 "$2") && more=$(taken $1 "$3") && echo "$(((more - less) / $4))"; }
command -v rustc > /dev/null && rustc --edition 2021 -O -o "$folder/plain" "$bench/plain_windows.rs"
table() {
    plain=""
    [ -x "$folder/plain" ] && plain=", in ordinary Rust $(each "$folder/plain $1" "$2" "$3" "$4")"
    echo "$1: $(each "out/bench_windows $1" "$2" "$3" "$4") instructions each$plain"
}
for run in 'frames 100' 'frames 10000' 'rows 100' 'rows 100000'; do
    table "$run" 100000 1100000 1000000
done
# At 650 ends of slides each window is full, and each end more gives 100 rows.
for run in 'each 6' 'each 60' 'each 600' 'sixth 6' 'sixth 60' 'sixth 600'; do
    table "$run" 650 750 10000
done
