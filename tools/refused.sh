#!/bin/bash
# Programs that the compiler must refuse, and a lawful twin of theirs, which must run: without a proof, in a copy of the
# repository. refused/NAME.txt is the main file of a crate; it does not end in .rt, since rt ci stops at a .rt file that no
# crate has. Must-fail edits are no place for these: they count where the prover refuses, not the compiler.
set -euo pipefail
cd "$(dirname "$0")/.."
tree=$(mktemp -d)
trap 'rm -rf "$tree"' EXIT
tar --exclude=out -cf - crates crates.txt | tar -xf - -C "$tree"
for file in refused/*.txt; do
    name=$(basename "$file" .txt)
    mkdir -p "$tree/crates/$name/src"
    cp "$file" "$tree/crates/$name/src/main.rt"
    echo "$name: memory plan protocol slips" >>"$tree/crates.txt"
done
for file in refused/*.txt; do
    name=$(basename "$file" .txt)
    (cd "$tree/crates/$name" && rt try >"$tree/$name.log" 2>&1 && touch "$tree/$name.ran") &
done
wait
failed=0
# NAME ERROR: the program is refused with this error and with none of another kind.
refused() {
    if [ -e "$tree/$1.ran" ] || ! grep -qF "$2" "$tree/$1.log" || [ -n "$(grep -F ': error[' "$tree/$1.log" | grep -vF "${2%%]*}]")" ]; then
        echo "refused: $1 is not refused with $2" >&2
        cat "$tree/$1.log" >&2
        failed=1
    fi
}
refused marks_line 'error[unknown-method]: the method `mark_faulty` takes `self` as `&mut Marked<Drafted>`, and is called on `Marked<InUse>`'
refused keeps_slip 'error[linear-value-let-go]: `slip` is let go'
refused writes_marks 'error[private-field]: field `marks` of struct `Marked` is private'
refused makes_slip 'error[private-field]: field `process` of struct `ReleaseSlip` is private'
refused copies_slip 'error[unknown-method]: the method `clone` exists for `ReleaseSlip`, but its bounds are not met'
if [ ! -e "$tree/lawful.ran" ]; then
    echo "refused: lawful does not run" >&2
    cat "$tree/lawful.log" >&2
    failed=1
fi
[ "$failed" = 0 ] && echo "refused: five programs are, and their lawful twin runs"
exit "$failed"
