#!/bin/bash
# docs/PROOFS.md states the promises of runs in plain words beside their formal text. This fails where the text is not the one in
# rules/specs/Promises, and in rules/specs/Runs and protocol/specs/Faults under it, so that the two cannot part.
set -euo pipefail
cd "$(dirname "$0")/.."
formal=$(awk '
    /^pub record (AtRest|Agreement|Completeness|Recorded) / { inside = 1; next }
    /^$/ { inside = 0 }
    inside && /^  pub / { print substr($0, 7) }
    /^(Correct|CorrectOf|Quiet|QuietOf|Stuck|CountsRightly|Luck) .* = / { print }
    /^(Ended|Forced|Decided|DecidingAny|FirstTold) .* = / { print }
' crates/protocol/specs/Faults.antt crates/rules/specs/Runs.antt crates/rules/specs/Promises.antt)
failed=0
while IFS= read -r line; do
    if ! grep -qF "\`$line\`" docs/PROOFS.md; then
        echo "statement: docs/PROOFS.md has not the text: $line" >&2
        failed=1
    fi
done <<<"$formal"
[ "$failed" = 0 ] && echo "statement: docs/PROOFS.md has the $(wc -l <<<"$formal") formal lines of the promises"
exit "$failed"
