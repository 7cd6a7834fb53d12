#!/bin/sh
# Compiles the header with tests/fields.c as C11 and as C++ with all warnings as errors, and lets it ask the library for the
# place of each field and the size of each struct. Then, for each two neighbouring fields of each struct, the same over a
# header in which they have changed places, and for each struct over one with a field more: it must find each of these
# headers wrong.
cd "$(dirname "$0")/.." || exit 2
made=$(mktemp -d) || exit 2
trap 'rm -rf "$made"' EXIT
library=crates/desk/out/libdesk.a
fail() { echo "header: $*"; exit 1; }
tools/cc -Wall -Wextra -Werror -std=c11 -Iinclude tests/fields.c "$library" -o "$made/c" || fail "tests/fields.c as C11"
tools/cc -Wall -Wextra -Werror -Iinclude -x c++ tests/fields.c -x none "$library" -o "$made/cpp" ||
    fail "tests/fields.c as C++"
tools/run "$made/c" || fail "the header does not fit, as C11"
tools/run "$made/cpp" || fail "the header does not fit, as C++"
python3 - "$made" <<'PY' || fail "no wrong headers were made"
import os, re, sys
lines = open("include/anduri.h").read().split("\n")
struct, last, made = None, None, 0
def write(name, changed):
    os.makedirs(f"{sys.argv[1]}/wrong/{name}")
    open(f"{sys.argv[1]}/wrong/{name}/anduri.h", "w").write("\n".join(changed))
for i, line in enumerate(lines):
    opened = re.match(r"typedef struct (\w+) \{", line)
    field = re.match(r"    \w+ (\w+)(\[32\])?;", line)
    if opened:
        struct, last = opened.group(1), None
    elif line.startswith("}") and struct:
        write(f"{struct}.more", lines[:i] + ["    uint64_t more;"] + lines[i:])
        struct, made = None, made + 1
    elif struct and field:
        if last is not None:
            write(f"{struct}.{field.group(1)}", lines[:last] + [line, lines[last]] + lines[i + 1 :])
            made += 1
        last = i
sys.exit(made < 24)
PY
count=0
for wrong in "$made"/wrong/*; do
    tools/cc -std=c11 -w -I"$wrong" tests/fields.c "$library" -o "$made/wrong.out" || fail "$(basename "$wrong") does not compile"
    tools/run "$made/wrong.out" >/dev/null 2>&1 && fail "$(basename "$wrong") is wrong, and was not found"
    count=$((count + 1))
done
echo "header: each of $count wrong headers is found"
