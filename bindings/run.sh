#!/bin/sh
# Compiles the example programs in C and Rust over the static library and runs them.
#
#     bindings/run.sh
#
# Each writes the fixed text of a job, routes the job and checks the layout: the board of document 01, which is in house style, so that it is
# its own fixed text, and whose layout is the one that the program `route` must print; a board with weights that is not in house style, whose
# fixed text is the one that the program `house` must print; an empty job, refused 2 at line 1; and one of 64,001 bytes, refused 1. It needs
# rt, cc and rustc, and writes below target/bindings/ and what `rt lib` makes, crates/exports/out.
set -eu
cd "$(dirname "$0")/.."
(cd crates/exports && rt lib > /dev/null)
library=crates/exports/out
work=target/bindings
mkdir -p "$work"
cc -std=c99 -Wall -Wextra -pedantic -Werror -O2 -o "$work/in_c" bindings/c/example.c -L "$library" -lexports
rustc -O --edition 2021 --crate-type rlib --crate-name hankuribo -L "$library" -o "$work/libhankuribo.rlib" bindings/rust/hankuribo.rs
rustc -O --edition 2021 --extern "hankuribo=$work/libhankuribo.rlib" -L "$library" -o "$work/in_rust" bindings/rust/example.rs

cp examples/board.job "$work/board.job"
{ cat examples/board.job crates/route/stdout; echo "(sound)"; } > "$work/board.out"
: > "$work/empty.job"
echo "(refused 2 1)" > "$work/empty.out"
head -c 64001 /dev/zero > "$work/long.job"
echo "(refused 1 0)" > "$work/long.out"
for program in in_c in_rust; do
    for case in board empty long; do
        "$work/$program" < "$work/$case.job" | cmp - "$work/$case.out"
    done
    "$work/$program" < crates/house_job/stdin > "$work/spaced.out"
    head -n "$(wc -l < crates/house_job/stdout)" "$work/spaced.out" | cmp - crates/house_job/stdout
    tail -n 1 "$work/spaced.out" | grep -q '^(sound)$'
    echo "$program: 4 jobs, as expected"
done
