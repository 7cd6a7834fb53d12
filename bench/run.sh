#!/usr/bin/env bash
# Measures the library and the program beside plain ones and writes bench/RESULTS.md.
# usage: bench/run.sh [tables] [growth] [program] [judging]     all four and the file; else these alone, only printed
# Measured are crates/desk/out/libdesk.a (`rt lib` in crates/desk) and crates/print/out/print (`rt run` in crates/print).
# WORKLOADS="W1 W2" has only these tables.
set -euo pipefail

cd "$(dirname "$0")/.."
for part in "$@"; do
    case $part in tables | growth | program | judging) ;; *) sed -n '2,5s/^# //p' "$0" >&2 && exit 2 ;; esac
done
fail() { echo "bench/run.sh: $*" >&2; exit 1; }
[ "$(uname -m)" = x86_64 ] || fail "the library is for x86-64, and this is $(uname -m)"
command -v valgrind >/dev/null || fail "valgrind counts the instructions and is not here"
library=$PWD/crates/desk/out/libdesk.a program=crates/print/out/print
[ -f "$library" ] || fail "there is no $library: rt lib in crates/desk"
[ -x "$program" ] || fail "there is no $program: rt run in crates/print"
made=$(mktemp -d)
trap 'rm -rf "$made"' EXIT
ANDURI_LIB=$library cargo build --offline --quiet --release --manifest-path bench/Cargo.toml
runner=target/cargo/release/anduri-bench
g++ -std=c++20 -O2 -Wall -Wextra -Werror bench/plain.cpp -o "$made/plain"

# The instructions of a whole process.
instructions() {
    valgrind --tool=callgrind --callgrind-out-file=/dev/null "$@" 2>&1 >/dev/null | sed -n 's/.*Collected : //p' | grep .
}

# The instructions of doing a thing once: twice less once. The thing is the runner's arguments without the last.
once() {
    local one two
    one=$(instructions "$runner" "$@" 1) && two=$(instructions "$runner" "$@" 2) || fail "$*: nothing was counted"
    echo $((two - one))
}

ratio() { awk -v a="$1" -v b="$2" 'BEGIN { printf "%.2f", a / b }'; }

# Both implementations' sums over what came out are the same.
same() { # WORKLOAD IMPLEMENTATION
    [ "$("$runner" table "$1" "$2" 1)" = "$("$runner" table "$1" slices 1)" ] || fail "$1: $2 and slices differ"
}

# Tick by tick these take minutes or hours under valgrind.
too_long_by_ticks() {
    case $1 in W3 | W5_* | W6) return 0 ;; *) return 1 ;; esac
}

tables() {
    local workload slices ticks count
    cat <<-END
	## Instructions of a table

	*slices* is a plain Rust replay with a step for each slice or change, *ticks* one that goes tick by tick; both stand in
	\`bench/src\`, with the workloads. All replays counted for a workload gave the same completions. A dash: tick by tick takes too
	long. A figure is the difference between a process that replays the table twice and one that replays it once.

	| workload | slices | ticks | ticks / slices | library | library / slices |
	|---|---|---|---|---|---|
	END
    for workload in ${WORKLOADS:-W1 W2 W3 W4 W5_2000 W5_1000 W5_500 W6}; do
        same "$workload" library
        slices=$(once table "$workload" slices) count=$(once table "$workload" library)
        if too_long_by_ticks "$workload"; then
            ticks="- | -"
        else
            same "$workload" ticks
            ticks=$(once table "$workload" ticks)
            ticks="$ticks | $(ratio "$ticks" "$slices")"
        fi
        echo "| $workload | $slices | $ticks | $count | $(ratio "$count" "$slices") |"
    done
    cat <<-END

	- W1: priority, 1,024 rows, 32 tasks, amounts to 1,000.
	- W2: round robin, slice 10, 1,024 rows, amounts to 2,000.
	- W3: slice 1, 32 rows, amounts near 1,000,000.
	- W4: slice 1, 1,024 rows, amounts 1,000 to 3,000.
	- W5: slices 2,000, 1,000 and 500, 1,024 rows, amounts 100,000 to 1,000,000.
	- W6: 64 rows spread over 4,000,000,000 ticks, amounts to 1,000.
	END
}

growth() {
    local pair slices count
    cat <<-END
	## Growth with the amounts and with the slice

	Instructions of a table of 32 rows, round robin, each amount between half of the one named and all of it: first the amounts grow
	at slice 10, then the slice shrinks.

	| amounts to | slice | slices | library | library / slices |
	|---|---|---|---|---|
	END
    for pair in 1000_10 10000_10 100000_10 1000000_10 1000000_65535 1000000_10000 1000000_1000 1000000_100 1000000_1; do
        same "G_$pair" library
        slices=$(once table "G_$pair" slices) count=$(once table "G_$pair" library)
        echo "| ${pair%_*} | ${pair#*_} | $slices | $count | $(ratio "$count" "$slices") |"
    done
}

program() {
    local workload name log counted=() start=()
    cat <<-END
	## The whole program

	\`crates/print/out/print\` beside \`bench/plain.cpp\`, which does the same in plain C++ ($(g++ --version | sed -n '1s/.* //p'), -O2), on full logs of 1,024 rows in 26
	blocks. First all instructions of the process; then those beyond a log without rows, which leaves out the loading of the
	program and its libraries, where C++ has more to load. Both printed the same bytes.

	| log | program | C++ | program / C++ | beyond no rows: program | C++ | program / C++ |
	|---|---|---|---|---|---|---|
	END
    "$runner" log W1 | head -c 512 >"$made/none.log"
    for name in "$program" "$made/plain"; do start+=("$(instructions "$name" <"$made/none.log")"); done
    for workload in W1 W2; do
        log=$made/$workload.log
        "$runner" log $workload >"$log"
        "$program" <"$log" >"$made/out"
        "$made/plain" <"$log" | cmp - "$made/out" && [ "$(wc -l <"$made/out")" = 1026 ] || fail "$workload: the texts differ"
        counted=("$(instructions "$program" <"$log")" "$(instructions "$made/plain" <"$log")")
        printf '| %s | %s | %s | %s |' $workload "${counted[@]}" "$(ratio "${counted[@]}")"
        counted=($((counted[0] - start[0])) $((counted[1] - start[1])))
        printf ' %s | %s | %s |\n' "${counted[@]}" "$(ratio "${counted[@]}")"
    done
}

judging() {
    local name speed count
    cat <<-END
	## Judging a log

	\`anduri_judge\` on the full log of W1 (13,312 bytes, in the cache) beside a plain Rust loop that asks the same (\`bench/src/judge.rs\`)
	and beside a copy of the bytes. Speeds are by processor time in one process, the best of 300 turns.

	| | MB/s | instructions a byte |
	|---|---|---|
	END
    "$runner" speeds W1 | while read -r name speed; do
        count=-
        [ "$name" = copy ] || count=$(ratio "$(once judge W1 "$name")" 13312)
        echo "| $name | $speed | $count |"
    done
    echo
    echo "The copy's instruction repeats itself and is counted for each byte, so it has no figure."
}

report() {
    cat <<-END
	# Measured

	Machine: $(sed -n 's/^model name[^:]*: //p' /proc/cpuinfo | head -n 1), $(uname -sm). Date: $(date -u +%F). Command: \`bench/run.sh\`.
	Compiler: $(rustc --version | cut -d' ' -f1,2); instructions are counted by $(valgrind --version).
	END
    for part in "$@"; do
        echo
        $part
    done
}

if [ $# -gt 0 ] || [ -n "${WORKLOADS:-}" ]; then
    report "${@:-tables}"
else
    report tables growth program judging >"$made/RESULTS.md"
    mv "$made/RESULTS.md" bench/RESULTS.md
    cat bench/RESULTS.md
fi
