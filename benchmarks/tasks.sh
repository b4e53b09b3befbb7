#!/usr/bin/env bash
# Times `raysim run` on scripts of N remote calls, and prints microseconds of processor time a task: the least of 60 whole processes
# less that of an empty script, by N. With --instructions it counts one process's instructions by valgrind (Debian's package), which come
# out the same on a busy machine. The shapes: calls that need nothing of one another, of which main gets the last (apart) or each
# in turn (got); calls that each need the one before (chain); and a task that calls two, which call two each, and so on (tree).
# RAYSIM names another program. First build the proved program: (cd crates/raysim && rt run)
set -euo pipefail
cd "$(dirname "$0")"
. ./shapes.sh

# N calls, and the value of the last.
apart() {
    echo "fn one(x: int) -> int { return x; }
fn main() -> int {
    let last = put 0;
    for i in 0 .. $1 { let new = remote one(i + 1); set last = new; }
    return get last;
}"
}

# N calls, each of the one before, and the value of the last.
chain() {
    echo "fn next(x: int) -> int { return x + 1; }
fn main() -> int {
    let last = put 0;
    for i in 0 .. $1 { let new = remote next(last); set last = new; }
    return get last;
}"
}

# A tree of N tasks: each has half of those below it on either side, and its value is how many tasks it and those below it are.
tree() {
    tree_task
    echo "fn main() -> int { return get remote tree($1); }"
}

# Processor time of one run of the script $1, in microseconds: the least of 60.
microseconds() {
    "$raysim" run "$1" > "$folder/report"
    ./least.py 60 "$raysim" run "$1"
}

# Instructions of one run of the script $1.
instructions() {
    valgrind --tool=callgrind --callgrind-out-file=/dev/null --log-file="$folder/counted" "$raysim" run "$1" > "$folder/report"
    awk '/Collected/ { print $4 }' "$folder/counted"
}

unit=microseconds
[ "${1:-}" != --instructions ] || unit=instructions
empty > "$folder/empty.ray"
base=$($unit "$folder/empty.ray")
echo "an empty script: $base $unit"
for shape in apart got chain tree; do
    for tasks in 100 300 500 900; do
        $shape "$tasks" > "$folder/script.ray"
        whole=$($unit "$folder/script.ray")
        grep -qx "main value $tasks" "$folder/report" || { echo "$shape $tasks: main ends otherwise"; exit 1; }
        awk -v spent=$((whole - base)) -v tasks="$tasks" -v what="$shape $tasks" -v unit=$unit \
            'BEGIN { printf "%s: %.1f %s a task\n", what, spent / tasks, unit }'
    done
done
