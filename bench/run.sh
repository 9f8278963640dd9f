#!/bin/bash
# Measures routing a job, checking a layout and writing a job in house style against the second router, on the same texts in one run. The
# second router was written apart from this code, from the documents and the readings in docs/DECISIONS.md; it runs at the level of
# bench/level.
#
#     bench/run.sh SECOND_ROUTER     the folder of the second router (its sources stand in src/), or set the variable of this name
#
# Builds the static library of the crate `exports` in crates/exports/out, the second router as a library and bench/main.rs below target/, all
# optimized, and runs the last.
set -e
second=$(realpath "${1:-${SECOND_ROUTER:?give the folder of the second router, or set SECOND_ROUTER}}")
. "$(dirname "$0")/libraries.sh"
build main bench
exec target/bench/bench
