#!/usr/bin/env bash
# Measures cluster/jet-dask on one machine: bench/cluster.sh [LINES [PROCESSES]], 10,000,000 lines in 8 files and 4 processes without these.
#
# First each pass over one file alone, in one process without Dask: seconds of the processor for each line, the least of ten. Then the
# same job over 8 files of one line, and over all lines; what the second costs more is what the lines cost. Seconds are those of the
# clock, and of all processors together; the memory is that of the greatest process. Both runs judge the job by the program jet. At last
# `jet run` has the same job, with as many workers as there were processes; it says whether its rows are the same.
set -u
top="$(cd "$(dirname "$0")/.." && pwd)" || exit 1
lines="${1:-10000000}" processes="${2:-4}"
room="$(mktemp -d)" || exit 1
trap 'rm -rf "$room"' EXIT
cd "$room" || exit 1

# A file of readings of 50 sensors, up to 40 units of time out of order, beginning at a line of the whole.
write_file() {
    awk -v first="$1" -v count="$2" 'BEGIN {
        for (i = first; i < first + count; i++)
            printf "%.0f,sensor-%d,%d\n", 1700000000000 + 10 * i + (7919 * i) % 41, (i * 31) % 50, (13 * i) % 1000 - 500
    }'
}

names=""
for number in 0 1 2 3 4 5 6 7; do
    write_file $((number * lines / 8)) $((lines / 8)) > "all$number.csv"
    write_file 0 1 > "one$number.csv"
    names="$names,\"WHICH$number.csv\""
done
for which in one all; do
    sed "s/WHICH/$which/g" > "$which.json" << JOB
{"vertices": [
  {"name": "s", "kind": "source", "files": [${names#,}], "lag": 40},
  {"name": "a", "kind": "accumulate", "size": 60000, "slide": 10000},
  {"name": "w", "kind": "combine"},
  {"name": "z", "kind": "sink"}],
 "edges": [
  {"from": "s", "to": "a", "route": "unicast"},
  {"from": "a", "to": "w", "route": "partitioned"},
  {"from": "w", "to": "z", "route": "unicast"}]}
JOB
done

exec /usr/bin/python3 - "$top/cluster/jet-dask" "$lines" "$processes" << 'CODE'
import filecmp
import os
import resource
import subprocess
import sys
import time

command, lines, processes = sys.argv[1], int(sys.argv[2]), sys.argv[3]
jet = os.environ.get("JET_PROGRAM") or os.path.join(os.path.dirname(command), "..", "jet")
block = str(max(1 << 16, min(1 << 24, lines * 30 // 32)))
sys.path.insert(0, os.path.dirname(command))
from jet_dask import blocks, stages


def least(name, function, *words):
    """Tells the least time of ten calls, for each line of a file."""
    spent = []
    for _ in range(10):
        began = time.process_time()
        answer = function(*words)
        spent.append(time.process_time() - began)
    print(f"{name}: {min(spent) / (lines // 8) * 1e6:.2f} us of the processor for each line")
    return answer


one = blocks.Block(0, b"all0.csv", 0, os.path.getsize("all0.csv"))
with open("all.json", "rb") as job:
    setup = stages.make_setup(job.read(), [], (), 2 * int(processes))
least("first pass", stages.scan_block, one)
least("second pass", stages.frame_block, one, stages.Before(0, 1, None), setup)


def used():
    of_all = resource.getrusage(resource.RUSAGE_CHILDREN)
    return time.time(), of_all.ru_utime + of_all.ru_stime


seen = {}
for which in ("one", "all"):
    began = used()
    with open("rows", "wb") as rows:
        subprocess.run([command, "run", f"{which}.json", "--processes", processes, "--blocks", block], stdout=rows, check=True)
    seen[which] = [end - begin for end, begin in zip(used(), began)]
    with open("rows", "rb") as rows:
        print(f"{which}: {seen[which][0]:.1f} s, {seen[which][1]:.1f} s of processors, {sum(1 for _ in rows)} rows")
more = seen["all"][1] - seen["one"][1]
memory = resource.getrusage(resource.RUSAGE_CHILDREN).ru_maxrss / 1024
print(f"{lines} lines, {processes} processes, blocks of {block} bytes: {more / lines * 1e6:.2f} us of a processor for each line, {memory:.0f} MB")

began = time.time()
with open("rows-of-jet", "wb") as rows:
    process = subprocess.Popen([jet, "run", "all.json", "--workers", processes], stdout=rows)
_, status, spent = os.wait4(process.pid, 0)
took, busy = time.time() - began, spent.ru_utime + spent.ru_stime
same = "the same rows" if filecmp.cmp("rows", "rows-of-jet", shallow=False) else "other rows"
print(f"jet run, {processes} workers: status {os.waitstatus_to_exitcode(status)}, {same}, {took:.1f} s, {busy:.1f} s of processors", end=", ")
print(f"{busy / lines * 1e6:.2f} us for each line")
CODE
