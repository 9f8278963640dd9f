#!/bin/sh
# Makes the input of the program `boards` and the output that it must print, the second router's.
#
#     bench/boards.sh SECOND_ROUTER STDIN STDOUT
#
# SECOND_ROUTER is the folder of the second router (its sources stand in src/, its jobs in vectors/). It was written apart from this code,
# from the documents and the readings in docs/DECISIONS.md. STDIN is the file of job texts to be made, each text ended by byte 255, which
# stands in no text; STDOUT the file of what the second router prints for them, one answer behind the other: a layout, or a line
# `(refused number line)`. Nothing of STDOUT comes from the code in this repository.
#
# The texts, in this order: document 01's boards to try, starred or not, and the other vectors of every family, the `max` family three
# times; boards with weights, written below; then generated jobs of the other families of document 01 and of those with weights, from seeds
# that the vectors do not have, none above 2,000 bytes. The families mixed and damaged2 use the forms that the level knows, so STDIN changes
# with it. Beside STDIN and STDOUT it writes below target/bench/ only.
. "$(dirname "$0")/cases.sh"

# the boards of document 01 are the first eleven vectors; every stored answer is what the second router says today
largest=0
for job in "$second"/vectors/*-*.job; do
    case $job in
        *-max.job)
            largest=$((largest + 1))
            if [ "$largest" -gt 3 ]; then continue; fi ;;
    esac
    add_job route "$job"
    if ! cmp -s "$work/answer" "${job%.job}.out"; then
        echo "$job: the second router's answer is not the stored one" >&2
        exit 1
    fi
done

# a weight turns the choice over; at 4 both choices have the sum 6
for weight in 7 4 2 ""; do
    turned "$weight" | add_text route
done

# the largest sum of a track, 511,488
heavy_nets | board 1024 1 | add_text route

# a weight left out may be above 999, a written one may not
for weight in "" " 999" " 1000" " 1010"; do
    echo " (net 1 1 1010 0 4095$weight)" | board 1024 1 | add_text route
done

# written weights at the ends of the range and outside it, with zeros in front, of six digits, and seven numbers
for weight in 0 00000 1 00001 999 0999 00999 000999 1000 01000 99999 100000 "7 7" "7 1000" "1000 7" "-1" "7.5" "(7)"; do
    echo " (net 1 2 4 0 4095 $weight)" | board 10 2 | add_text route
done

# a fault of number 5, 6 (left and right), 7, 8 and 9, and all at once, on a line with a weight: outside the range it is number 3
for weight in 0 1000 999; do
    for numbers in "3 1 5 0 4095" "4 2 5 0 4095" "4 1 4 0 4095" "4 5 5 0 4095" "4 1 5 0 8" "4 1 5 60 61" "3 2 2 60 1"; do
        printf ' (net 3 2 4 0 4095)\n (net %s %s)\n' "$numbers" "$weight" | board 10 2 | add_text route
    done
done

# a 513th net, number 4, with a weight inside the range and outside it
for weight in 999 1000; do
    { heavy_nets; echo " (net 513 1 2 0 4095 $weight)"; } | board 1024 1 | add_text route
done

# the first faulty line counts; a block has no weight
printf ' (net 1 5 5 0 4095 7)\n (net 2 2 4 0 4095 0)\n' | board 10 2 | add_text route
printf ' (net 1 2 4 0 4095 1000)\n (net 2 5 5 0 4095 7)\n' | board 10 2 | add_text route
echo " (block 1 1 1 7)" | board 10 2 | add_text route

# two nets of equal weight, written and left out, reach best(1) with their top at row 1: the lower number is taken
board 4 1 <<'END' | add_text route
 (net 1 1 2 0 4095 4)
 (net 2 3 4 10 10)
END
board 4 1 <<'END' | add_text route
 (net 1 3 4 10 10)
 (net 2 1 2 0 4095 4)
END

# equal weights, some written, some left out, on rows that overlap; a block keeps net 3 from track 2
board 12 3 <<'END' | add_text route
 (net 1 1 3 0 4095)
 (net 2 4 2 0 4095 3)
 (net 3 5 8 0 4095 4)
 (net 4 7 6 0 4095 4)
 (net 5 9 12 0 4095 2)
 (net 6 11 10 0 4095)
 (net 7 12 11 0 4095 2)
 (block 2 6 6)
END

# net 1 precedes net 2 and finds its place on the last track only; so net 2 stays loose, heavy as it is
board 6 2 <<'END' | add_text route
 (net 1 1 3 0 4095 1)
 (net 2 5 1 0 4095 999)
 (net 3 4 2 0 4095 5)
END

# nine generated jobs of each family of document 01 but `max`, and of those with weights
for family in tiny small dense blocky precedence stretch edge spacing damaged ties words weights mixed damaged2; do
    add_family route "$family" 20001 9
done
tell_jobs
