#!/usr/bin/env bash
# Times `raysim serial` on the same loops in main's own block and inside of 25 nested blocks, five times each in turn, and prints the
# least seconds of each and their ratio; RAYSIM names another program. First build the proved program: (cd crates/raysim && rt run)
set -euo pipefail
cd "$(dirname "$0")"
raysim=${RAYSIM:-../crates/raysim/out/raysim}
output=$(mktemp)
trap 'rm -f "$output"' EXIT
# Seconds of one run of the script $1.
seconds() {
    local start end
    start=$(date +%s.%N)
    "$raysim" serial "$1" > "$output"
    end=$(date +%s.%N)
    echo "$end - $start" | bc
}
least() {
    sort -n | head -1
}
flat=()
nested=()
for turn in 1 2 3 4 5; do
    flat+=("$(seconds flat.ray)")
    wanted=$(cat "$output")
    nested+=("$(seconds nested.ray)")
    [ "$(cat "$output")" = "$wanted" ] || { echo "nested.ray gives another answer"; exit 1; }
done
flat_least=$(printf '%s\n' "${flat[@]}" | least)
nested_least=$(printf '%s\n' "${nested[@]}" | least)
printf 'flat %.3f s, nested %.3f s, ratio %.2f\n' "$flat_least" "$nested_least" "$(echo "$nested_least / $flat_least" | bc -l)"
