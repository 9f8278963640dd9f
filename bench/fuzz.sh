#!/bin/bash
# Routes random jobs, checks layouts and writes jobs in house style, and holds every answer against the second router's, in one process. The
# second router was written apart from this code, from the documents and the readings in docs/DECISIONS.md; it runs at the level of
# bench/level.
#
#     bench/fuzz.sh SECOND_ROUTER [FIRST [COUNT]]     the folder of the second router; the first seed and how many (1 and 100,000)
#
# bench/fuzz.rs says what is compared, bench/hostile.rs which texts there are. At a difference it prints the seed and both texts, and the
# exit status is 1; `bench/fuzz.sh SECOND_ROUTER SEED 1` repeats it. Beside target/ it writes what
# `rt lib` makes, crates/exports/out.
set -e
second=$(realpath "${1:?give the folder of the second router}")
shift
. "$(dirname "$0")/libraries.sh"
build fuzz fuzz
exec target/bench/fuzz "$@"
