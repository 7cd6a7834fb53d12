#!/bin/sh
# "No call walks through the ticks one by one. Under round robin a step per slice is enough": by counted instructions, not by
# a clock. A call that passes a million ticks costs at most 16 instructions more than one that passes a few, with as many
# changes and slices on the way, and a slice more costs at most 100. The calls are those of tests/moves.c.
cd "$(dirname "$0")/.." || exit 2
made=$(mktemp -d) || exit 2
trap 'rm -rf "$made"' EXIT
fail() { echo "moves: $*"; exit 1; }
library=${ANDURI_LIB:-$PWD/crates/desk/out/libdesk.a}
[ -f "$library" ] || (cd crates/desk && rt lib) >"$made/said" 2>&1 || { cat "$made/said"; fail "there is no library"; }
compiled() { tools/cc -O2 -Wall -Wextra -Werror -std=c11 "$@" -Iinclude tests/moves.c "$library"; }
compiled -o "$made/moves" || fail "tests/moves.c"
if [ "$(uname -m)" != x86_64 ]; then
    tools/run "$made/moves" >"$made/names" || fail "a call does not reach its time"
    echo "moves: this is no x86-64 machine, and its emulator counts nothing: the calls were made, and not measured"
    exit 0
fi
command -v valgrind >/dev/null || fail "valgrind counts the instructions and is not here"
# The instructions of each run of measured(), a line each: the pair's name, the ticks, the count.
counted() { # PROGRAM
    valgrind --tool=callgrind --collect-atstart=no --toggle-collect=measured --dump-after=measured \
        --callgrind-out-file="$1.count" "$1" >"$1.names" 2>"$1.said" || { cat "$1.said"; fail "nothing was counted"; }
    part=0
    while read -r name ticks; do
        part=$((part + 1))
        echo "$name $ticks $(sed -n 's/^summary: //p' "$1.count.$part")"
    done <"$1.names"
}
# What is not as it should be, of such lines.
judged() {
    awk '
    NF != 3 || $3 <= 0 { print "nothing was counted for " $0 }
    $1 in few { pairs++; if ($3 > few[$1] + 16) print $1 ": " few[$1] " instructions, and " $3 " for " $2 " ticks" }
    !($1 in few) { few[$1] = $3 }
    END {
        for (name in few) {
            split(name, of, ":")
            if (of[1] != "slices_100") continue
            slices++
            if (few["slices_101:" of[2]] > few[name] + 100 || few["slices_1000:" of[2]] > few[name] + 900 * 100)
                print of[2] ": " few[name] " instructions for 100 slices, " few["slices_101:" of[2]] " for 101, " \
                    few["slices_1000:" of[2]] " for 1,000"
        }
        if (pairs != 40 || slices != 4) print pairs + 0 " pairs were counted, and " slices + 0 " calls by slices"
    }'
}
counted "$made/moves" >"$made/counts" || { cat "$made/counts"; exit 1; }
wrong=$(judged <"$made/counts")
[ -z "$wrong" ] || fail "$wrong"
compiled -DWALKS -o "$made/walks" && counted "$made/walks" >"$made/walked" || fail "tests/moves.c with -DWALKS"
judged <"$made/walked" | grep -q 'advance:\|:advance' || fail "a call that walks through the ticks was not found"
echo "moves: a million ticks cost no more than a few, and a slice more at most 100 instructions"
