#!/bin/sh
# Printed arrays are JSON: how many cities the best tour has, and its first three.
comet=${COMET:-./comet}
"$comet" --data examples/tour.data examples/tour.comet | sed -n 's/^tour \(.*\) length .*/\1/p' |
    python3 -c 'import json, sys; tour = json.load(sys.stdin); print(len(tour), tour[:3])'
