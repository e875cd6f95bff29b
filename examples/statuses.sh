#!/bin/sh
# What a script makes of a run's status: what was printed counts where the run is done or its fuel is spent.
comet=${COMET:-./comet}
for fuel in 100 3000 100000; do
    printed=$("$comet" --fuel "$fuel" --data examples/flow_shop.data examples/flow_shop.comet 2>/dev/null)
    case $? in
        0) echo "fuel $fuel: done: $(echo "$printed" | tail -n 2 | head -n 1)" ;;
        6) echo "fuel $fuel: so far: $(echo "$printed" | tail -n 1)" ;;
        *) echo "fuel $fuel: failed" ;;
    esac
done
