#!/bin/sh
# The improvements of two seeds as a picture: a line for each seed, a dot for each length that was printed.
comet=${COMET:-./comet}
runs=$(mktemp -d) || exit 1
for seed in 0 1; do
    "$comet" --seed "$seed" --data examples/tour.data examples/tour.comet >"$runs/seed $seed"
done
tools/draw-run --step step --value length --title 'gr17' "$runs/seed 0" "$runs/seed 1" >"$runs/tour.svg"
echo "lines: $(grep -c '<polyline' "$runs/tour.svg")"
rm -rf "$runs"
