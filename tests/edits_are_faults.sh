#!/bin/sh
# usage: tests/edits_are_faults.sh [LOG]     LOG is what `rt ci` or `rt must-fail` said; without it `rt must-fail` runs here
# Each must-fail edit says on what input it differs, quotes document 01, and was refused because a fact fails: what rt says of
# it names no place, field or goal that the edit removed, and no limit of the prover. Prints each one that is not so, and fails
# if there is any.
log=${1:+$(realpath "$1")}
cd "$(dirname "$0")/.." || exit 2
if [ -z "$log" ]; then
    log=$(mktemp) || exit 2
    trap 'rm -f "$log"' EXIT
    rt must-fail >"$log" 2>&1
fi
bad=$(for e in crates/*/must-fail/*.edit; do
    crate=${e#crates/} crate=${crate%%/*}
    grep -q '^# Differs at ' "$e" || echo "$e: no input on which it differs"
    grep -q '^# Document 01, .*"' "$e" || echo "$e: no sentence of document 01"
    said=$(grep -F "rt: must-fail $crate/$(basename "$e"): " "$log")
    case $said in
    '') echo "$e: it was not tried" ;;
    *': refused, as it must be (only because a proof file names '*) echo "$e: it only made the proof unfit" ;;
    *': refused, as it must be (only by a limit '*) echo "$e: it only met a limit of the prover" ;;
    *': refused, as it must be: '*)
        printf '%s\n' "$said" | grep -Eq 'has no field|has no `|not in scope|can be named from here' &&
            echo "$e: it only made the proof unfit"
        ;;
    *) printf '%s: it was not refused: %s\n' "$e" "$said" ;;
    esac
done)
[ -z "$bad" ] && { echo "edits: each is a fault"; exit 0; }
printf '%s\n' "$bad"
exit 1
