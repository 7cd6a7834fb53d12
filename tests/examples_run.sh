#!/bin/sh
# Builds the callers in examples/ over crates/desk/out/libdesk.a, runs them, and compares what they write with the stored
# output. The header is compiled as C11 and as C++ with all warnings as errors. The library is for x86-64: on another machine C
# runs by the toolchain's emulator, and the caller in Rust is only compiled.
cd "$(dirname "$0")/.." || exit 2
made=$(mktemp -d) || exit 2
trap 'rm -rf "$made"' EXIT
library=crates/desk/out/libdesk.a
fail() { echo "examples: $*"; exit 1; }
gcc -Wall -Wextra -Werror -std=c11 -Iinclude -fsyntax-only -x c include/anduri.h || fail "the header is not C11"
g++ -Wall -Wextra -Werror -Iinclude -fsyntax-only -x c++ include/anduri.h || fail "the header is not C++"
for c in follow_a_run keep_a_run; do
    tools/cc -Wall -Wextra -Werror -std=c11 -Iinclude examples/$c.c "$library" -o "$made/$c" || fail "$c.c"
    tools/run "$made/$c" >"$made/$c.out" && cmp "$made/$c.out" examples/$c.out || fail "$c.c"
done
if [ "$(uname -m)" = x86_64 ]; then
    rustc --edition 2021 examples/run_a_table.rs -L crates/desk/out -l static=desk -o "$made/rust" || fail "run_a_table.rs"
    gcc -shared -o "$made/libanduri.so" -Wl,--whole-archive "$library" -Wl,--no-whole-archive || fail "the shared library"
    "$made/rust" >"$made/rust.out" && cmp "$made/rust.out" examples/run_a_table.out || fail "run_a_table.rs"
    python3 examples/read_a_log.py "$made/libanduri.so" examples/case_a.log >"$made/python.out" &&
        cmp "$made/python.out" examples/read_a_log.out || fail "read_a_log.py"
else
    rustc --edition 2021 --emit metadata examples/run_a_table.rs -o "$made/rust" || fail "run_a_table.rs"
    echo "examples: this is no x86-64 machine: run_a_table.rs and read_a_log.py were not run"
fi
./replay >"$made/replay.out" && cmp "$made/replay.out" examples/case_a.out || fail "./replay"
for name in case_a watch; do
    python3 examples/make_log.py "examples/$name.txt" "$made/log" && cmp "$made/log" "examples/$name.log" || fail "$name.txt"
    ./replay "examples/$name.log" >"$made/replay.out" && cmp "$made/replay.out" "examples/$name.out" || fail "$name.log"
    python3 examples/picture.py "examples/$name.txt" "$made/replay.out" "$made/svg" &&
        cmp "$made/svg" "examples/$name.svg" || fail "$name.svg"
done
# Completions that the rule does not give have no picture.
sed 's/ 5$/ 6/' examples/case_a.out >"$made/wrong.out"
! python3 examples/picture.py examples/case_a.txt "$made/wrong.out" "$made/wrong.svg" 2>"$made/wrong.err" &&
    grep -q 'not what the rule gives' "$made/wrong.err" && [ ! -e "$made/wrong.svg" ] || fail "picture.py of wrong completions"
! ./replay "$made/none" 2>"$made/none.err" && grep -q 'there is no file' "$made/none.err" || fail "./replay and no file"
echo "examples: each writes what is stored"
