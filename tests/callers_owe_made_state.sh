#!/bin/sh
# "A call may require that the run, reader or other state handed to it was made by a setup or opening and calls on it. Nothing
# else is required of a caller.": the public functions of these crates, a trait's methods too, require MadeRun, Reads, Standing
# or Stands, and no more. A fact that a public type holds, and what a trait's method asks (`can_`), is such a demand as well.
cd "$(dirname "$0")/.." || exit 2
crates='rule setups requests readings replay table tracker words judging logs places reader text report intake face desk'
files=''
for crate in $crates; do
    files="$files crates/$crate/src/lib.rt"
    for module in $(sed -n 's/^pub mod \([a-z_]*\);/\1/p' "crates/$crate/src/lib.rt"); do
        files="$files crates/$crate/src/$module.rt"
    done
done
# shellcheck disable=SC2086
asked=$(awk '
    FNR == 1 { public = 0 }
    FNR == 1 || /^}/ { trait = 0; held = 0 }
    /^impl.* for / || /^pub trait / { trait = 1 }
    /^pub (struct|enum) / { held = 1; name = $3 }
    /^(    )?(pub )?(extern "C" )?fn / {
        public = /^ *pub / || trait; indent = match($0, /[^ ]/) - 1; name = $0; sub(/^.*fn /, "", name); sub(/[(<].*/, "", name); if (public) calls++
    }
    public && substr($0, 1, indent + 1) == sprintf("%" indent "s{", "") { public = 0 }
    public && /^ *requires/ && !/^ *requires ([a-z_]+ )?\{ (MadeRun|Reads|Standing|Stands) [A-Za-z0-9_.«» ]*\}$/ { print FILENAME ": " name ": " $0 }
    held && /ghost [^ :=]+: / { facts++ }
    held && /ghost [^ :=]+: / && !/\{ (MadeRun|Reads|Standing|Stands) [A-Za-z0-9_.«» ]*\},$/ { print FILENAME ": " name ": " $0 }
    /^ *ghost invariant = / { print FILENAME ": " $0 }
    /^ *ghost can_/ { facts++ }
    /^ *ghost can_/ && !/= \{ (MadeRun|Reads|Standing|Stands) \};$/ { print FILENAME ": " $0 }
    END {
        if (calls < 92) print "only " calls " public functions were found"
        if (facts < 2) print "only " facts " facts of types and traits were found"
    }' $files)
[ -z "$asked" ] && { echo "callers owe nothing but made state"; exit 0; }
printf '%s\n' "$asked"
exit 1
