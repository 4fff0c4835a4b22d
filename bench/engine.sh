#!/bin/sh
# What a line costs in a whole run of the proved program, `jet run` and `jet window` beside an ordinary body in Rust
# (plain_engine.rs) over the same file: instructions a line, those that 900,000 lines more take divided by these; seconds and
# the greatest memory of a run over 1,000,000 lines, and of 5,000,000; and the same lines in four files with 1, 2 and 4 workers.
# The rows of all are compared. It takes another program as its word, and wants valgrind, GNU time, and rustc for the ordinary body.
bench="$(cd "$(dirname "$0")" && pwd)"
jet="${1:-$bench/../crates/jet/out/jet}"
[ -x "$jet" ] || { echo "no program at $jet" >&2; exit 1; }
folder="$(mktemp -d)"
trap 'rm -rf "$folder"' EXIT
cd "$folder" || exit 1
# So many lines of 100 keys, 7 units of time apart and up to 3,000 out of order.
lines() {
    awk -v n="$1" 'BEGIN { for (i = 0; i < n; i++) printf "%.0f,sensor-%d,%d\n", 1700000000000 + 7 * i + (i * 7919) % 3000, i % 100, i % 1000 }'
}
# A job over these files, with so many instances of each vertex.
job() {
    cat << JOB
{
  "vertices": [
    {"name": "s", "kind": "source", "files": [$1], "lag": 5000, "parallelism": $2},
    {"name": "a", "kind": "accumulate", "size": 60000, "slide": 10000, "parallelism": $2},
    {"name": "w", "kind": "combine", "parallelism": $2},
    {"name": "z", "kind": "sink"}
  ],
  "edges": [
    {"from": "s", "to": "a", "route": "unicast"},
    {"from": "a", "to": "w", "route": "partitioned", "distributed": true},
    {"from": "w", "to": "z", "route": "unicast", "distributed": true}
  ]
}
JOB
}
for n in 100000 1000000 5000000; do
    lines "$n" > "$n.csv"
    job "\"$n.csv\"" 1 > "$n.json"
done
for part in 0 1 2 3; do awk -v part="$part" 'NR % 4 == part' 1000000.csv > "part$part.csv"; done
job '"part0.csv", "part1.csv", "part2.csv", "part3.csv"' 4 > four.json

taken() { valgrind --tool=callgrind --callgrind-out-file=/dev/null "$@" 2>&1 > /dev/null | sed -n 's/.*Collected : //p'; }
each() { less=$(taken $1 "$2") && more=$(taken $1 "$3") && echo "$(((more - less) / 900000)) instructions a line"; }
timed() { /usr/bin/time -f '%e s, %M kB' "$@" 2>&1 > rows | tail -n 1; }
report() { echo "$1: $2"; }

report 'jet run, 1 worker' "$(each "$jet run --workers=1" 100000.json 1000000.json)"
report 'jet window' "$(each "$jet window 60000 10000 5000" 100000.csv 1000000.csv)"
report 'jet run, 1 worker, 1,000,000 lines' "$(timed "$jet" run --workers=1 1000000.json)"
mv rows wanted
report 'jet window, 1,000,000 lines' "$(timed "$jet" window 60000 10000 5000 1000000.csv)"
cmp -s rows wanted || report 'jet window' 'other rows'
if command -v rustc > /dev/null && rustc --edition 2021 -O -o plain "$bench/plain_engine.rs"; then
    report 'ordinary Rust' "$(each './plain 60000 10000 5000' 100000.csv 1000000.csv)"
    report 'ordinary Rust, 1,000,000 lines' "$(timed ./plain 60000 10000 5000 1000000.csv)"
    cmp -s rows wanted || report 'ordinary Rust' 'other rows'
fi
report 'jet run, 1 worker, 5,000,000 lines' "$(timed "$jet" run --workers=1 5000000.json)"
for workers in 1 2 4; do
    report "jet run, four files, $workers workers, 1,000,000 lines" "$(timed "$jet" run "--workers=$workers" four.json)"
    sort rows > sorted
    sort wanted | cmp -s - sorted || report "$workers workers" 'other rows'
done
