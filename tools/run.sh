#!/bin/sh
# What ./rehearse and ./check-script share. CALL CRATE [FILE]: runs the program of a crate on a file, or on standard input.
# The program is proved and built on first use, and again when its sources change.
set -eu
call=$1
name=$2
shift 2
case ${1-} in
-h | --help)
    echo "usage: ./$call FILE, or ./$call with the script on standard input"
    exit 0
    ;;
esac
if [ $# -gt 1 ]; then
    echo "$call: one file at the most" >&2
    exit 2
fi
here=$(cd "$(dirname "$0")/.." && pwd)
crate=$here/crates/$name
program=$crate/out/$name
if [ ! -x "$program" ] || [ -n "$(find "$here/crates" "$here/crates.txt" -name out -prune -o -type f -newer "$program" -print | head -n 1)" ]; then
    echo "$call: proving and building the program; the first time takes some minutes" >&2
    mkdir -p "$crate/out"
    # the run itself reads nothing
    if ! (cd "$crate" && rt run </dev/null) >"$crate/out/$call.log" 2>&1; then
        echo "$call: the program could not be built; see crates/$name/out/$call.log" >&2
        exit 1
    fi
    # unchanged sources keep the old program
    touch "$program"
fi
if [ $# -gt 0 ]; then
    exec "$program" <"$1"
fi
exec "$program"
