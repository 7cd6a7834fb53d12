#!/bin/sh
# The library for C needs memcpy and memset from outside and no other name, as include/anduri.h says: a board's own C library
# may have no more. Where nm can't read the library, which is for x86-64, this says so.
cd "$(dirname "$0")/.." || exit 2
library=${ANDURI_LIB:-$PWD/crates/desk/out/libdesk.a}
[ -f "$library" ] || { echo "library: there is no $library"; exit 1; }
names=$(nm -u "$library" 2>/dev/null | sed -n 's/^ *U //p' | sort -u | tr '\n' ' ')
if [ -z "$names" ] && [ "$(uname -m)" != x86_64 ]; then
    echo "library: nm can't read a library for x86-64 here, and its names were not looked at"
    exit 0
fi
[ "$names" = "memcpy memset " ] && { echo "library: memcpy and memset are needed, and nothing else"; exit 0; }
echo "library: it needs '$names' from outside"
exit 1
