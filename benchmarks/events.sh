#!/usr/bin/env bash
# Times `raysim sim` on scripts that a settle line runs to their ends, and prints microseconds of processor time an event, by the number of
# events: the least of some whole processes less that of an empty script. The shapes: rounds of 100 calls that need nothing of one another,
# of which main gets the last (apart); calls whose values main gets each in turn (got); rounds of 100 calls that each need the one before
# (chain); trees of 100 tasks, one after the other (tree); and rounds of 30 calls on 16 nodes (nodes). How many events the settle rule names
# is read off the run's log.
# With --instructions it counts one process's instructions by valgrind (Debian's package), which come out the same on a busy machine, in the
# first two rows of each shape.
# RAYSIM names another program. First build the proved program: (cd crates/raysim && rt run)
set -euo pipefail
cd "$(dirname "$0")"
. ./shapes.sh

# $1 rounds of $2 calls, and the sum of the last ones' values.
rounds() {
    echo "fn one(x: int) -> int { return x; }
fn main() -> int {
    let sum = 0;
    for b in 0 .. $1 {
        let last = put 0;
        for i in 0 .. $2 { let new = remote one(i + 1); set last = new; }
        set sum = sum + get last;
    }
    return sum;
}"
}

apart() {
    rounds "$1" 100
}

nodes() {
    rounds "$1" 30
}

# $1 rounds of 100 calls, each of the one before, and the sum of the last ones' values.
chain() {
    echo "fn next(x: int) -> int { return x + 1; }
fn main() -> int {
    let sum = 0;
    for b in 0 .. $1 {
        let last = put 0;
        for i in 0 .. 100 { let new = remote next(last); set last = new; }
        set sum = sum + get last;
    }
    return sum;
}"
}

# $1 trees of 100 tasks, one after the other, and how many tasks they are.
tree() {
    tree_task
    echo "fn main() -> int {
    let sum = 0;
    for b in 0 .. $1 { set sum = sum + get remote tree(100); }
    return sum;
}"
}

# Processor time of one simulation of the script $1 on $2 nodes, in microseconds: the least of $3 of them.
microseconds() {
    local simulation=("$raysim" sim "$1" "$folder/settle.ev" --nodes "$2" --slots 4)
    "${simulation[@]}" > "$folder/report"
    ./least.py "$3" "${simulation[@]}"
}

# Instructions of one simulation of the script $1 on $2 nodes.
instructions() {
    valgrind --tool=callgrind --callgrind-out-file=/dev/null --log-file="$folder/counted" \
        "$raysim" sim "$1" "$folder/settle.ev" --nodes "$2" --slots 4 > "$folder/report"
    awk '/Collected/ { print $4 }' "$folder/counted"
}

# How many events a simulation of the script $1 on $2 nodes has: in its log each begins a line with its number.
events() {
    "$raysim" log "$1" "$folder/settle.ev" --nodes "$2" --slots 4 | awk -F. '/^[0-9]+[.] / { number = $1 } END { print number }'
}

unit=microseconds
[ "${1:-}" != --instructions ] || unit=instructions

# The shape $1 on $2 nodes with $3 rounds, after which main's value is $4: the least of $5 simulations. Large ones aren't counted by valgrind.
row() {
    [ $unit = microseconds ] || [ "$5" -ge 20 ] || return 0
    "$1" "$3" > "$folder/script.ray"
    local whole count
    count=$(events "$folder/script.ray" "$2")
    whole=$($unit "$folder/script.ray" "$2" "$5")
    grep -qx "main value $4" "$folder/report" || { echo "$1 $3: main ends otherwise"; exit 1; }
    awk -v shape="$1" -v events="$count" -v spent="$((whole - base))" -v unit=$unit \
        'BEGIN { printf "%s, %d events: %.1f %s an event\n", shape, events, spent / events, unit }'
}

echo settle > "$folder/settle.ev"
empty > "$folder/empty.ray"
base=$($unit "$folder/empty.ray" 1 40)
row apart 1 1 100 40
row apart 1 11 1100 20
row apart 1 110 11000 8
row got 1 100 100 40
row got 1 1000 1000 20
row got 1 9900 9900 8
row chain 1 1 100 40
row chain 1 8 800 20
row chain 1 76 7600 8
row tree 1 1 100 40
row tree 1 9 900 20
row tree 1 91 9100 8
row nodes 16 2 60 40
row nodes 16 22 660 20
row nodes 16 227 6810 8
