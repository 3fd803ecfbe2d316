#!/usr/bin/env bash
# Counts, in src/ of all crates, the places that docs/DESIGN-PASS.md speaks of, a line for each point; with -l it lists them.
set -uo pipefail
cd "$(dirname "$0")/.." || exit 1
list=${1:-}

# A point, what is counted, and the places, one a line.
point() {
    local places
    places=$(cat)
    printf '%-4s %4d  %s\n' "$1" "$(grep -c . <<< "$places")" "$2"
    if [ "$list" = -l ]; then
        sed 's/^/          /' <<< "$places"
    fi
}

# The lines of src/ that a pattern finds.
lines() {
    grep -rnE --include='*.rt' "$1" crates/*/src
}

# Own enums with a variant for a refusal, a fault or an acceptance.
enums() {
    awk '/^ *(pub(\(crate\))? )?enum /{name=FILENAME ": " $0; body=""} name{body=body "\n" $0}
        /^}/{if (name && body ~ /\n    (Refused|Faulty|Accepted|Good|Told)/) print name; name=""}' crates/*/src/*.rt
}

# The facts that stand in the requires of three or more functions, with their counts.
facts() {
    grep -rhE --include='*.rt' '^ *requires' crates/*/src | sed -E 's/.*requires( [a-z_]+)? \{ //; s/ \}$//; s/ × /\n/g' \
        | sed -E 's/^\(([^()]*)\)$/\1/' | sort | uniq -c | sort -rn | awk '$1 >= 3'
}

enums | point 1a 'own enums of the shape of Option or Result'
lines '^ *(pub(\(crate\))? )?[a-z_]+: bool,$|[{ ][a-z_]+: bool,.* \}' | grep -v 'fn ' | point 1b 'flags with a value beside them'
lines '(Refused\(|return |=> |\{ )([0-9]+|NO_[A-Z]+)(\)|;|,| \}).*' | grep -E 'Refused\(|starts/' | point 1c 'numbers for refusals'
lines '^(pub )?const KIND_[A-Z]+: u8' | point 1d 'numbers for kinds'
lines '^ *(pub(\(crate\))? )?fn ' | sed -E 's/.*fn ([a-z_0-9]+).*/\1/' | sort | uniq -d | point 2 'names of functions that stand in two places or more'
lines '^ *(while|loop)\b' | point 3 'loops by hand'
lines '^ *(pub(\(crate\))? )?fn (lesser|greater|less|over|above|one_past|kept|within|within_bands|word32|put_word|band_of|choice_of|[a-z]+_number|loads_of|nearer_of|better_of|distance_of|print_record)\b' \
    | point 4 'order, conversion and printing by hand'
facts | point 5 'facts in the requires of three or more functions'
lines '^ *(pub )?(count|last): usize,$|(from|opening|sheet|ends|table): &(mut )?\[[a-z0-9]+\], (count|last): usize|list: &\[u8\], count: usize|^    pub [a-z]+: \[u(8|16|32); [A-Z_]+\],$' \
    | point 6 'buffers with a length beside them, parallel arrays'
lines '^ *match (choice|start|kind|neighbourhood|total|distances::hauls_by)\b' | point 7 'switches on which step to run'
grep -rhE --include=Answers.antt '^pub [^ ]+ : goal\.' crates/*/proofs | point 8 'answers'
