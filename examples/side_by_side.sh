#!/bin/sh
# Two runs at a time, each into files of its own, and then how they ended and their last lengths, the least first.
comet=${COMET:-./comet}
runs=$(mktemp -d) || exit 1
export comet runs
seq 0 3 | xargs -P 2 -I SEED sh -c '
    "$comet" --seed SEED --data examples/tour.data examples/tour.comet >"$runs/SEED.out" 2>"$runs/SEED.err"
    echo "seed SEED status $?" >>"$runs/ends"'
sort "$runs/ends"
for run in "$runs"/*.out; do
    sed -n 's/^tour .* length //p' "$run"
done | sort -n
rm -rf "$runs"
