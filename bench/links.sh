#!/bin/sh
# What an item costs that goes through a ring, and what through a link between two rings. The times stand on standard error.
cd "$(dirname "$0")/../crates/bench_links" && exec rt run
