#!/usr/bin/env bash
# Times `raysim serial` beside Lua 5.4 and Python 3 (Debian's packages lua5.4 and python3) on the same three computations,
# and prints seconds and ratios; RAYSIM and PYTHON name other programs. First build the proved program: (cd crates/raysim && rt run)
set -euo pipefail
cd "$(dirname "$0")"
raysim=${RAYSIM:-../crates/raysim/out/raysim}
python=${PYTHON:-python3}
output=$(mktemp)
trap 'rm -f "$output"' EXIT
seconds() {
    local start end
    start=$(date +%s.%N)
    "$@" > "$output"
    end=$(date +%s.%N)
    echo "$end - $start" | bc
}
for name in loops lists calls; do
    ours=$(seconds "$raysim" serial $name.ray)
    wanted=$(cat "$output")
    lua=$(seconds lua5.4 $name.lua)
    [ "$(cat "$output")" = "$wanted" ] || { echo "$name: Lua gives another answer"; exit 1; }
    python_seconds=$(seconds "$python" $name.py)
    [ "$(cat "$output")" = "$wanted" ] || { echo "$name: Python gives another answer"; exit 1; }
    printf '%s: raysim %.2f s, Lua %.2f s (ratio %.1f), Python %.2f s (ratio %.1f)\n' \
        "$name" "$ours" "$lua" "$(echo "$ours / $lua" | bc -l)" "$python_seconds" "$(echo "$ours / $python_seconds" | bc -l)"
done
