# shellcheck shell=bash
# Sourced from the repository's root: numbers of the rules, as their definitions give them.

# rules_answers: each answer of the rules and its number
rules_answers() {
    sed -nE 's/^number_of \(?([A-Za-z]+)( [a-z]\))? = ([0-9]+)$/\1 \3/p' crates/rules/specs/Answer.antt
}
