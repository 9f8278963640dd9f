#!/bin/sh
# Makes the input of the program `fixedtexts` and the output that it must print, the second router's.
#
#     bench/houses.sh SECOND_ROUTER STDIN STDOUT
#
# SECOND_ROUTER is the folder of the second router (its sources stand in src/, its jobs in vectors/). It was written apart from this code,
# from the documents and the readings in docs/DECISIONS.md. STDIN is the file of job texts to be made, each text ended by byte 255, which
# stands in no text; STDOUT the file of what the second router prints for them, one answer behind the other: a fixed text, or a line
# `(refused number line)`. Nothing of STDOUT comes from the code in this repository.
#
# The texts, in this order: those written below; the vectors of every family up to 2,000 bytes, and the first of the family `max`; then
# generated jobs of every family but the largest, from seeds that the vectors do not have, none above 2,000 bytes. Jobs of orders that are
# still to come are among them. The families mixed, mixedspacing and damaged2 use the forms that the level knows, so STDIN changes with it.
# Beside STDIN and STDOUT it writes below target/bench/ only.
. "$(dirname "$0")/cases.sh"

# adds the text on standard input
add() {
    add_text house
}

# document 01's board, which is its own fixed text
example() {
    cat <<'END'
(board
 (rows 10)
 (tracks 2)
 (net 1 2 4 7 7)
 (net 2 6 8 11 12)
 (net 3 9 10 6 8)
 (net 4 3 2 6 6)
 (net 5 5 6 6 6)
 (block 2 6 6)
)
END
}

# the text on standard input with spaces behind it, $1 bytes altogether
filled() {
    { cat; printf '%*s' "$1" ''; } | head -c "$1"
}

# blocks by track, A and B, one of them twice
board 10 2 <<'END' | add
 (block 2 10 10)
 (block 1 9 9)
 (block 2 9 10)
 (block 1 9 9)
 (block 2 9 9)
END

# blocks between nets
board 10 2 <<'END' | add
 (block 2 1 10)
 (net 1 2 4 7 7)
 (block 2 1 9)
 (block 1 10 10)
 (net 30 6 8 11 12)
 (net 9999 9 10 6 8)
 (block 1 2 3)
END

# 512 nets and 256 blocks, nearly as many digits as they can have; the blocks in falling order
{
    printf '(board\n(rows 1024)\n(tracks 128)\n'
    for i in $(seq 0 511); do
        echo "(net $((9488 + i)) $((1024 - i)) $((1023 - i)) 1000 4095 $((999 - i)))"
    done
    for i in $(seq 255 -1 0); do
        echo "(block $((65 + i / 4)) $((1000 + i / 2 % 2)) $((1022 + i % 2)))"
    done
    echo ")"
} | add

# all blocks equal, as many as there may be, and one more
yes "(block 2 3 5)" | head -n 256 | board 10 2 | add
yes "(block 2 3 5)" | head -n 257 | board 10 2 | add

# no nets, no blocks, neither
board 10 2 <<'END' | add
 (block 2 6 6)
 (block 1 1 10)
END
example | grep -v block | add
board 10 2 < /dev/null | add

# the fixed text itself, and with other spaces, blank lines and zeros in front: five digits are the most that a number has
example | add
example | head -c -1 | add
example | sed 's/^ //' | add
example | sed 's/[()]/   &  /g; s/ /  /g; s/$/\n \n/' | add
example | sed '1s/^/\n  \n/; $s/$/   \n\n/' | add
example | sed 's/ \([0-9]\)/ 0\1/g' | add
example | sed 's/\<[0-9]\>/0000&/g; s/10/00010/' | add
example | sed 's/10/000010/' | add

# weights: the needed rows written, which are left out, for a plain net (3) and a stretched one (4); one less and one more; the ends of the
# range; zeros in front; outside the range
for numbers in "2 4 7 7 3" "2 4 7 7 2" "2 4 7 7 4" "6 8 11 12 4" "6 8 11 12 3" "6 8 11 12 5" "2 4 7 7 1" "2 4 7 7 999" "2 4 7 7 00003" \
    "2 4 7 7 00999" "2 4 7 7 0" "2 4 7 7 1000" "2 4 7 7 3 3"; do
    echo " (net 1 $numbers)" | board 10 2 | add
done

# needed rows above 999: left out they are the weight; written they are outside the range; 999 is another weight, but not of 999 rows
for numbers in "1 1010 0 4095" "1 1010 0 4095 999" "1 1010 0 4095 1010" "1 999 0 4095 999"; do
    echo " (net 1 $numbers)" | board 1024 1 | add
done

# a fixed text with weights, and the same with the weights that it leaves out, the needed rows of nets 1, 3 and 5
weighted() {
    example | sed 's/\(net 2 .*\))/\1 999)/; s/\(net 4 .*\))/\1 1)/'
}
weighted | add
weighted | sed 's/\(net 1 .*\))/\1 3)/; s/\(net 3 .*\))/\1 02)/; s/\(net 5 .*\))/\1 2)/' | add

# the most bytes, one more, and none
example | filled 64000 | add
example | filled 64001 | add
add < /dev/null

largest=0
for job in "$second"/vectors/*-*.job; do
    case $job in
        *-max.job)
            largest=$((largest + 1))
            if [ "$largest" -gt 1 ]; then continue; fi ;;
        *)
            if [ "$(wc -c < "$job")" -gt 2000 ]; then continue; fi ;;
    esac
    add_job house "$job"
done

for family in tiny small dense blocky precedence stretch edge spacing damaged ties words \
    weights straight via pairs mixed mixedspacing later damaged2; do
    add_family house "$family" 40001 7
done
tell_jobs
