# What the benchmarks of runs share: the program, a folder that goes at the end, and scripts. A benchmark sources it from this folder.
raysim=${RAYSIM:-../crates/raysim/out/raysim}
folder=$(mktemp -d)
trap 'rm -rf "$folder"' EXIT

empty() {
    echo 'fn main() -> int { return 0; }'
}

# $1 calls, and how many values were got.
got() {
    echo "fn one(x: int) -> int { return 1; }
fn main() -> int {
    let sum = 0;
    for i in 0 .. $1 { set sum = sum + get remote one(i); }
    return sum;
}"
}

# The task of a tree of n tasks: each has half of those below it on either side, and its value is how many tasks it and those below it are.
tree_task() {
    echo "fn tree(n: int) -> int {
    if n == 1 { return 1; }
    let half = (n - 1) / 2;
    let left = remote tree(n - 1 - half);
    if half == 0 { return 1 + get left; }
    let right = remote tree(half);
    return 1 + get left + get right;
}"
}
