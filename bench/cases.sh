# What boards.sh, houses.sh and layouts.sh share; sourced, not run. Told the folder of the second router and the two files to make, it builds
# the second router below target/bench/, sets its level and empties the files.
#
# bench/level has the level: the number of the last order (a request after document 01) that is delivered, 0 if none. The second router
# then behaves as the system after that order. Its check names the first broken line as order 3 judges at every level, as ours does before any order.
set -eu
LC_ALL=C
export LC_ALL
if [ $# -ne 3 ]; then
    echo "usage: $0 SECOND_ROUTER STDIN STDOUT" >&2
    exit 2
fi
second=$1
stdin=$2
stdout=$3
work=$(dirname "$0")/../target/bench
LEVEL=$(cat "$(dirname "$0")/level")
export LEVEL
mkdir -p "$work"
rustc -O -A warnings -o "$work/second" "$second/src/main.rs"
: > "$stdin"
: > "$stdout"

# adds the text in the file $1 to STDIN, ended by byte 255
put() {
    if ! tr -d '\377' < "$1" | cmp -s - "$1"; then
        echo "$1: byte 255 stands in the text" >&2
        exit 1
    fi
    cat "$1" >> "$stdin"
    printf '\377' >> "$stdin"
}

# adds the job in the file $2, and what the second router's operation $1 (route or house) prints for it, which stays in $work/answer
add_job() {
    "$work/second" "$1" < "$2" > "$work/answer"
    put "$2"
    cat "$work/answer" >> "$stdout"
}

# adds the job on standard input as add_job does for the operation $1
add_text() {
    cat > "$work/job"
    add_job "$1" "$work/job"
}

# a job text: a board of $1 rows and $2 tracks with the lines on standard input
board() {
    echo "(board"
    echo " (rows $1)"
    echo " (tracks $2)"
    cat
    echo ")"
}

# 512 nets of two rows each, one below the other, all of weight 999: on a board of 1,024 rows and one track the sum is 511,488, the largest
heavy_nets() {
    for i in $(seq 512); do
        echo " (net $i $((2 * i - 1)) $((2 * i)) 0 4095 999)"
    done
}

# the board on which net 2's weight decides: nets 2 and 3 together are heavier than net 1 if it is above 4; $1 is that weight, or empty
turned() {
    board 6 1 <<END
 (net 1 1 6 0 4095)
 (net 2 2 3 0 4095${1:+ $1})
 (net 3 4 5 0 4095)
END
}

# adds $4 generated jobs of the family $2 as add_job does for the operation $1, from the seed $3 on, none above 2,000 bytes
add_family() {
    seed=$3
    made=0
    while [ "$made" -lt "$4" ]; do
        "$work/second" gen "$seed" "$2" > "$work/job"
        seed=$((seed + 1))
        if [ "$(wc -c < "$work/job")" -gt 2000 ]; then continue; fi
        add_job "$1" "$work/job"
        made=$((made + 1))
    done
}

# tells how many jobs were added
tell_jobs() {
    jobs=$(tr -d -c '\377' < "$stdin" | wc -c)
    refused=$(grep -c '^(refused ' "$stdout" || true)
    echo "$jobs jobs, $refused of them refused; $(wc -c < "$stdin") bytes in, $(wc -c < "$stdout") bytes out"
}
