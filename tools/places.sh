#!/bin/bash
# Counts, over src/ of all crates, the lines that docs/DESIGN-PASS.md looks at for each point. Each line is a place to look at,
# and not yet a place to change. With -v it prints the lines too.
cd "$(dirname "$0")/.." || exit 1
show() {
    local name="$1" lines
    shift
    lines=$("$@" | grep -v '^--$')
    printf '%-34s %d\n' "$name" "$(printf '%s' "$lines" | grep -c .)"
    if [ -n "$verbose" ]; then printf '%s\n' "$lines"; fi
}
[ "$1" = -v ] && verbose=1
src() { grep -rnE "$@" --include=*.rt crates/*/src; }
arms() { src '(None|Err\(_?[a-z]*\)) => (None|Err|false|0)|Some\(_\) => 1|Ok\([a-z()]*\) => Ok\(|Some\([a-z]+\) => Some\(|else \{ None \}'; }
leaving() { src -A1 'else \{$' | grep -E 'return Err\(Refusal|^[^:]*-[0-9]+- *None$'; }
loops() { src '^\s*(for .* in .*\.\.|while )'; }
indexed() { src '\[(k|at|n|next|process|sender|originator as usize|addressee|first \+ sender|0)\]|\[(at|next|originator|process|addressee)( as usize)?( - 1)?\] ='; }
equality() { src 'same_bytes\(|\.number\(\) ==|fn is_(out|readied)|if let None'; }
converting() { src 'from_number|from_draft|fn (side|ballot|step)_name|\.min\(MOST\) as'; }
sized() { src '^\s*(pub(\(crate\))? )?(held|count|at): usize,|values: \[|places: \[Option|: \[u64; (7|11)\]|heap: Global,$'; }
switches() { src '[a-z_]+: bool[,)]|enum Choice|dyn '; }
few() { src 'requires( [a-z_]+)? \{ ?(Few |n ≤ 16|t ≤ 16|process < |message\.now\.sender <|length input\.now ≤ 4096|first \+ )'; }
show '1 arms that a method does' arms
show '1 early leaving of None or Err' leaving
show '1 enums' src '^\s*(pub )?enum '
show '3 loops over numbers' loops
show '3 elements by index' indexed
show '4 equality by hand' equality
show '4 conversions and names by hand' converting
show '5 facts asked again' few
show '6 sizes beside buffers' sized
show '7 switches' switches
