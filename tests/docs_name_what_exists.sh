#!/bin/sh
# Each word in back quotes in README.md and docs/ is a path of the repository, a command, a vector or a must-fail edit, or
# stands as a whole word in a source file; of a method, as `Type::name`, both words do. Prints what does not, and fails if
# anything is printed. docs/PORT.md and docs/DESIGN-PASS.md also tell words that were, and are left out.
cd "$(dirname "$0")/.." || exit 2
words=$(mktemp) || exit 2
trap 'rm -f "$words"' EXIT
find crates tests bench examples include -name out -prune -o -type f \
    \( -name '*.rt' -o -name '*.antt' -o -name '*.rs' -o -name '*.sh' -o -name '*.h' -o -name '*.c' -o -name '*.py' \) \
    -exec cat {} + 2>/dev/null | tr -s ' \t(){}[],;:"' '\n' | sort -u >"$words"
lost=$(find README.md docs -name '*.md' ! -name PORT.md ! -name DESIGN-PASS.md -exec grep -oh '`[^` ]*`' {} + 2>/dev/null | tr -d '`' | sort -u |
    while IFS= read -r w; do
        # shellcheck disable=SC2086  # a path may have a *
        ls -d $w >/dev/null 2>&1 && continue
        { [ -e "crates/$w" ] || [ -e "tests/vectors/$w.log" ]; } && continue
        find crates -name out -prune -o \( -name "$w.edit" -o -name "$w.antt" \) -print | grep -q . && continue
        grep -qxF -- "$w" "$words" && continue
        case $w in
        [A-Z]*::*)
            grep -rqwF --exclude-dir=out --include='*.rt' -- "fn ${w#*::}" crates && grep -qxF -- "${w%::*}" "$words" && continue
            ;;
        esac
        grep -rqwF --exclude-dir=out --include='*.rt' --include='*.antt' --include='*.rs' --include='*.sh' -- "$w" crates tests &&
            continue
        printf '%s\n' "$w"
    done)
[ -z "$lost" ] && { echo "docs: every name exists"; exit 0; }
echo "docs name what does not exist:"
printf '%s\n' "$lost"
exit 1
