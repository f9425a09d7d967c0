#!/bin/bash
# Feeds lint and rehearsal, as rt ci built them, a script that is one byte too long, since a main has no contract. Each reads
# a byte more than a script may have, so that a longer one shows; their stored inputs are shorter. Silent where all is well:
# the gate's last line is rt ci's.
set -euo pipefail
cd "$(dirname "$0")/.."
failed=0
for name in lint rehearsal; do
    told=$(head -c 4097 /dev/zero | tr '\0' '\n' | "crates/$name/out/$name")
    if [ "$told" != '(refused 2)' ]; then
        echo "too_long: $name answers a script of 4097 bytes with something else than (refused 2)" >&2
        head -n 20 <<<"$told" >&2
        failed=1
    fi
done
exit "$failed"
