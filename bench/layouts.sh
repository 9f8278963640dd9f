#!/bin/sh
# Makes the input of the program `layouts` and the output that it must print, the second router's.
#
#     bench/layouts.sh SECOND_ROUTER STDIN STDOUT
#
# SECOND_ROUTER is the folder of the second router (its sources stand in src/, its check cases in vectors/). It was written apart from this
# code, from the documents and the readings in docs/DECISIONS.md. STDIN is the file to be made: for each case the job's text and the
# layout's, each ended by byte 255, which stands in no text; STDOUT the file of what the second router's check prints for them, a line
# each. Nothing of STDOUT comes from the code in this repository.
#
# The cases, in this order: all check cases of the vectors; layouts of boards with weights, written below; then, for generated jobs of the
# families of document 01 but `max` and `damaged` and of the families weights and mixed, the second router's layout and three mutants of it,
# where the job is accepted and the two texts have at most 2,000 bytes. The family mixed uses the forms that the level knows, so STDIN changes
# with it. Beside STDIN and STDOUT it writes below target/bench/ only.
. "$(dirname "$0")/cases.sh"

# adds the job in the file $1 with the layout in the file $2; the verdict stays in $work/verdict
add() {
    put "$1"
    put "$2"
    "$work/second" check "$1" "$2" > "$work/verdict"
    cat "$work/verdict" >> "$stdout"
}

# adds the job in $work/job with the layout of these inner lines
add_lines() {
    { echo "(layout"; printf ' %s\n' "$@"; echo ")"; } > "$work/layout"
    add "$work/job" "$work/layout"
}

# adds the job in $work/job, one net of two rows, with a layout that has the sum $1 and the net in $2 lines; the first of them draws it
add_repeated() {
    {
        printf '(layout\n (track 1 %s)\n (wire 1 (0 1) (1 1) (1 2) (3 2))\n' "$1"
        yes " (wire 1)" | head -n $(($2 - 1))
        echo ")"
    } > "$work/layout"
    add "$work/job" "$work/layout"
}

# every stored verdict is what the second router says today
for layout in "$second"/vectors/*.lay; do
    add "${layout%.lay}.job" "$layout"
    if ! cmp -s "$work/verdict" "${layout%.lay}.verdict"; then
        echo "$layout: the second router's verdict is not the stored one" >&2
        exit 1
    fi
done

# a net of two rows and weight 5: it counts 5, also drawn over four rows, twice 5 if its wire stands twice, and nothing if it is loose
echo " (net 1 2 3 0 4095 5)" | board 6 1 > "$work/job"
wire="(wire 1 (0 2) (1 2) (1 3) (3 3))"
for sum in 5 2 4 10 0; do
    add_lines "(track 1 $sum)" "$wire"
    add_lines "(track 1 $sum)" "(wire 1 (0 2) (1 2) (1 1) (2 1) (2 4) (1 4) (1 3) (3 3))"
    add_lines "(track 1 $sum)" "$wire" "$wire"
    add_lines "(track 1 $sum)" "(loose 1)"
done

# the board that a weight turns over: its heaviest layout, also with the sum of the needed rows, and lighter ones
turned 7 > "$work/job"
wire2="(wire 2 (0 2) (1 2) (1 3) (3 3))"
wire3="(wire 3 (0 4) (1 4) (1 5) (3 5))"
add_lines "(track 1 9)" "$wire2" "$wire3" "(loose 1)"
add_lines "(track 1 4)" "$wire2" "$wire3" "(loose 1)"
add_lines "(track 1 6)" "(wire 1 (0 1) (1 1) (1 6) (3 6))" "(loose 2)" "(loose 3)"
add_lines "(track 1 7)" "$wire2" "(loose 1)" "(loose 3)"
add_lines "(track 1 2)" "$wire2" "(loose 1)" "(loose 3)"

# a weight left out above 999
echo " (net 1 1 1010 0 4095)" | board 1024 1 > "$work/job"
for sum in 1010 999; do
    add_lines "(track 1 $sum)" "(wire 1 (0 1) (1 1) (1 1010) (3 1010))"
done

# the largest sum of a sound layout, 511,488
heavy_nets | board 1024 1 > "$work/job"
"$work/second" route < "$work/job" > "$work/layout"
add "$work/job" "$work/layout"

# true sums by lines that stand again: 65,934, which 16 bits do not hold; 999,999; and 1,000,998, which no line can say
echo " (net 1 1 2 0 4095 999)" | board 2 1 > "$work/job"
for sum in 65934 398; do
    add_repeated "$sum" 66
done
add_repeated 999999 1001
for sum in 998 999999 1000998; do
    add_repeated "$sum" 1002
done

for family in tiny small dense blocky precedence stretch edge spacing ties words weights mixed; do
    seed=30001
    made=0
    while [ "$made" -lt 6 ]; do
        "$work/second" gen "$seed" "$family" > "$work/job"
        "$work/second" route < "$work/job" > "$work/layout"
        seed=$((seed + 1))
        case $(head -n 1 "$work/layout") in
            "(refused "*) continue ;;
        esac
        if [ "$(cat "$work/job" "$work/layout" | wc -c)" -gt 2000 ]; then continue; fi
        add "$work/job" "$work/layout"
        for k in 1 2 3; do
            "$work/second" mutate $((seed * 11 + k)) "$work/job" "$work/layout" > "$work/mutant"
            add "$work/job" "$work/mutant"
        done
        made=$((made + 1))
    done
done
echo "$(wc -l < "$stdout") cases, $(grep -c '^(broken ' "$stdout") of them broken; $(wc -c < "$stdin") bytes in"
