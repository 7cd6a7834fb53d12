#!/bin/sh
# What is measured beside the library is right: the plain C++ program prints the text of every vector, and the plain replays
# and judges in bench/ agree with those of the tests.
cd "$(dirname "$0")/.." || exit 2
made=$(mktemp -d) || exit 2
trap 'rm -rf "$made"' EXIT
fail() { echo "bench: $*"; exit 1; }
g++ -std=c++20 -O2 -Wall -Wextra -Werror bench/plain.cpp -o "$made/plain" || fail "plain.cpp"
for log in tests/vectors/*.log examples/*.log; do
    "$made/plain" <"$log" >"$made/out" && cmp "$made/out" "${log%.log}.out" || fail "plain.cpp on $log"
done
cargo test --offline --quiet --release --manifest-path bench/Cargo.toml || fail "the plain replays"
echo "bench: what is measured is right"
