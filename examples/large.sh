#!/usr/bin/env bash
# Writes a telemetry file of 100,000 lines to standard output, the same at each call: fifty sensors whose readings come
# up to 40 units of time out of order, and one reading in a thousand that comes 20,000 units late.
#
#     examples/large.sh > large.csv
#     ./jet window 10000 5000 40 large.csv 2> large.late > large.rows
set -u
exec awk 'BEGIN {
    for (i = 0; i < 100000; i++) {
        time = 10 * i + (7919 * i) % 41
        if (i % 1000 == 999 && i > 2000) time = time - 20000
        key = "sensor-" (i * 31) % 50
        if (i % 10 == 3) key = "\"" key "\""
        line = time "," key "," ((13 * i) % 1000 - 500)
        if (i % 7 == 0) line = line "," i % 100 "," (i % 3 - 1)
        print line
    }
}'
