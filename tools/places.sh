#!/usr/bin/env bash
# Lists the places of src/ that docs/DESIGN-PASS.md counts, form by form, each with its count. What a pattern can't see (twins, parameters
# that travel together, buffers with a count) is counted there by reading, and by `duplicates` on a copy with names in .rs.
set -euo pipefail
cd "$(dirname "$0")/.."
src=(crates/*/src)

show() {
    local title=$1 found
    shift
    found=$("$@" || true)
    printf '%s: %s\n' "$title" "$(printf '%s' "$found" | grep -c . || true)"
    [ -z "${QUIET:-}" ] && [ -n "$found" ] && printf '%s\n' "$found" | sed 's/^/    /' || true
}

# 1. Option and Result taken apart by a match whose arm only makes another, or says that it can't be; types without the common derives.
show '1a. match arms that only turn an Option or Result into another' \
    grep -rnE '^\s*(Some\(.*\)|None|Ok\(.*\)|Err\(.*\)) => (Some\(|None|Ok\(|Err\(|unreachable|\w+,$|refused\w*\(0)' "${src[@]}"
show '1b. enums without Debug, PartialEq and Eq' \
    bash -c 'grep -rnE -B1 "^\s*(pub(\(crate\))? )?enum " "$@" | grep derive | grep -v "Debug, PartialEq, Eq"' _ "${src[@]}"
# 2. Twins, by their first lines: contracts that are alike but for one word are read off this list.
show '2. functions of the same name in one crate, or of one shape (see the page)' \
    bash -c 'grep -rhoE "^\s*(pub(\(crate\))? )?(const )?fn \w+" "$@" | sed -E "s/.*fn //" | sort | uniq -d' _ "${src[@]}"
# 3. Loops.
show '3a. loops over a range of numbers' grep -rnE '\bfor \w+ in [^{]*\.\.' "${src[@]}"
show '3b. sums, products and counts kept by hand in a loop' grep -rnE '^\s*(sum|total|whole|count) \+= ' "${src[@]}"
show '3c. while and loop' grep -rnE '^\s*(while|loop)\b' "${src[@]}"
# 4. Conversion, printing and equality by hand.
show '4a. functions that are named for a conversion' \
    grep -rnE 'fn (list_of|entry|shown|numbered|meaning|bad_row|number|refusal_of|says\w*|rounded|from_\w+|to_\w+|as_\w+)\b' "${src[@]}"
show '4b. structs that stand only for a printing or a comparison' grep -rnE 'struct (Printed|Told|Posted)\b' "${src[@]}"
# 5. Facts that stand in three or more requires.
show '5a. facts that stand in three or more requires' \
    bash -c 'grep -rhoE "requires( \w+)? \{.*\}" "$@" | sed -E "s/requires( \w+)? //" | sort | uniq -c | awk "\$1 >= 3"' _ "${src[@]}"
show '5b. requires with several facts in one clause' grep -rnE 'requires.*×' "${src[@]}"
# 6. Fixed arrays in types and answers.
show '6. arrays in fields and answers' grep -rnE '(: |-> |Option<|Result<|&mut |&)\[\w+; \w+\]' "${src[@]}"
# 7. Enums that only choose a step.
show '7. enums that only choose what to add' grep -rnE '^\s*enum Gathered' "${src[@]}"
# 8. Proofs.
for crate in crates/*; do
    [ -d "$crate/proofs" ] || continue
    printf '8. lines of %s/proofs: %s\n' "$crate" "$(find "$crate/proofs" -name '*.antt' -exec cat {} + | wc -l)"
done
