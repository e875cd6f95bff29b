#!/bin/sh
# Many seeds of one program, and the best of them. A run that doesn't end well is told, and doesn't count.
comet=${COMET:-./comet}
printed=$(mktemp) && said=$(mktemp) || exit 1
best=
for seed in 0 1 2 3; do
    "$comet" --seed "$seed" --data examples/vehicles.data examples/vehicles.comet >"$printed" 2>"$said"
    status=$?
    if [ "$status" -ne 0 ]; then
        echo "seed $seed: status $status: $(cat "$said")"
        continue
    fi
    way=$(sed -n 's/^stops .* way //p' "$printed")
    echo "seed $seed: $way"
    if [ -z "$best" ] || [ "$way" -lt "$best" ]; then
        best=$way
    fi
done
rm -f "$printed" "$said"
echo "best: $best"
