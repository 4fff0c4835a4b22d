#!/bin/sh
# What an item costs on its way through one tasklet, a mark in a coalescer and an item in a router, in
# instructions, and beside that in ordinary Rust: those that a longer run takes more than a shorter one, divided by the
# items or marks more. It wants valgrind, and rustc for the second.
bench="$(cd "$(dirname "$0")" && pwd)"
cd "$bench/../crates/bench_hops" && rt run > /dev/null || exit 1
folder="$(mktemp -d)"
trap 'rm -rf "$folder"' EXIT
taken() { valgrind --tool=callgrind --callgrind-out-file=/dev/null "$@" 2>&1 | sed -n 's/.*Collected : //p'; }
each() { less=$(taken "$@" 20000) && more=$(taken "$@" 40000) && echo "$(((more - less) / 20000))"; }
command -v rustc > /dev/null && rustc --edition 2021 -O -o "$folder/plain" "$bench/plain_hops.rs"
for run in 'keys 2' 'ring 1' 'filter 1' 'stamp 1' 'first 4' 'first 1000' 'last 4' 'last 1000' 'turns 4' 'turns 1000' 'router 4' 'router 64'; do
    plain=""
    [ -x "$folder/plain" ] && plain=", in ordinary Rust $(each "$folder/plain" $run)"
    echo "$run: $(each out/bench_hops $run) instructions each$plain"
done
