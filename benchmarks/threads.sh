#!/usr/bin/env bash
# Times sixteen tasks of a million turns each by `raysim run` on 1, 2 and 4 threads, beside Erlang's processes on as many schedulers and Dask's
# threads (Debian's packages erlang-base and python3-dask), compares the sums, and prints seconds and speed-ups: the least of three runs each.
# Erlang and Python tell the seconds of the computation alone, and raysim's are of the whole process. RAYSIM and PYTHON name other programs.
# First build the proved program: (cd crates/raysim && rt run)
set -euo pipefail
cd "$(dirname "$0")"
. ./shapes.sh
python=${PYTHON:-/usr/bin/python3}

ours() {
    local start end
    start=$(date +%s.%N)
    "$raysim" run threads.ray --threads "$1" --slots 8 > "$folder/report"
    end=$(date +%s.%N)
    head -1 "$folder/report"
    echo "$end - $start" | bc
}

erlang() {
    erl +S "$1:$1" -noshell -pa "$folder" -s threads main
}

dask() {
    "$python" threads.py "$1"
}

# The least seconds of three runs of $1 on $2 threads; the sum has to be the one that Python's came to.
least() {
    local turn
    for turn in 1 2 3; do
        "$1" "$2" > "$folder/said"
        [ "$(head -1 "$folder/said")" = "$wanted" ] || { echo "$1 on $2 threads: another sum" >&2; exit 1; }
        tail -1 "$folder/said"
    done | sort -g | head -1
}

erlc -o "$folder" threads.erl
wanted=$(dask 1 | head -1)
for name in ours erlang dask; do
    one=
    for threads in 1 2 4; do
        seconds=$(least $name $threads)
        one=${one:-$seconds}
        printf '%s on %d: %.3f s, speed-up %.2f\n' "$name" "$threads" "$seconds" "$(echo "$one / $seconds" | bc -l)"
    done
done
