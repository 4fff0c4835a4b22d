#!/bin/sh
# What an item costs that goes through a ring. The time stands on standard error.
cd "$(dirname "$0")/../crates/bench_rings" && exec rt run
