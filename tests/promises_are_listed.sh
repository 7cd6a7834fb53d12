#!/bin/sh
# Each public function that another crate can call stands in the first cell of a row of docs/PROMISES.md: a method as
# `Type::name`, and so does a trait's; a conversion as `From<A> for B`. That file tells how many must-fail edits there are.
# Functions of a module that its crate keeps to itself (`mod`, not `pub mod`) may be left out. Prints what is missing, and
# fails if anything is printed.
cd "$(dirname "$0")/.." || exit 2
files=$(
    for crate in crates/*; do
        for file in "$crate"/src/*.rt; do
            [ "$(basename "$file")" = main.rt ] && continue
            grep -q "^mod $(basename "$file" .rt);" "$crate/src/lib.rt" 2>/dev/null || echo "$file"
        done
    done
)
# shellcheck disable=SC2086
names=$(awk '
    FNR == 1 || /^}/ { type = ""; trait = "" }
    /^impl/ {
        head = $0; sub(/^impl(<[^>]*>)? /, "", head); sub(/ \{.*/, "", head); gsub(/&'\''[a-z]+ /, "\\&", head); gsub(/<'\''[a-z_]+>/, "", head)
        trait = head ~ / for / ? head : ""; type = head; sub(/.* for /, "", type)
    }
    /^(    )?(pub )?(extern "C" )?fn / {
        name = $0; sub(/^.*fn /, "", name); sub(/[^a-z0-9_].*/, "", name)
        if (trait ~ /^(Try)?From</) print trait
        else if (trait != "") print type "::" name
        else if (/^    pub /) print type "::" name
        else if (/^pub /) print name
    }' $files | sort -u)
missing=$(
    [ "$(printf '%s\n' "$names" | wc -l)" -ge 115 ] || echo "fewer than 115 public functions were found"
    printf '%s\n' "$names" | while IFS= read -r name; do
        grep '^| ' docs/PROMISES.md | cut -d '|' -f 2 | grep -qF "\`$name\`" || echo "docs/PROMISES.md has no promise of $name"
    done
    edits=$(find crates -name '*.edit' | wc -l)
    programs=$(grep -l '^file: src/' crates/*/must-fail/*.edit | wc -l)
    grep -q "^Of $((edits)) edits $((programs)) are wrong programs; $((edits - programs)) change a definition" docs/PROMISES.md ||
        echo "docs/PROMISES.md tells other numbers than $((edits)) edits and $((programs)) wrong programs"
)
[ -z "$missing" ] && { echo "promises: every public function is listed"; exit 0; }
printf '%s\n' "$missing"
exit 1
