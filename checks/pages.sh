# shellcheck shell=bash
# Sourced from the repository's root: what a page names, and where its links lead.
# shellcheck disable=SC2016 # backticks are the page's

# ticked: what stands in backticks in the text that is read
ticked() {
    grep -oE '`[^`]+`' | tr -d '`'
}

# declared NAME FILE: the file declares the name: a signature, a definition, a type, a constructor or a function
declared() {
    awk -v n="$1" '
        { line = $0; sub(/^[ ]+/, "", line); sub(/^(unfoldable |abbrev )?(pub )?(data |record |extern "C" |fn |struct |enum )*/, "", line) }
        index(line, n) == 1 && substr(line, length(n) + 1) ~ /^([ (<]|$)/ { found = 1 }
        END { exit !found }
    ' "$2"
}

# linked PAGE: where its links and pictures lead, each once
linked() {
    grep -oE '\]\([^)]+\)' "$1" | sed -E 's/^\]\(//; s/\)$//' | sort -u
}

# anchors PAGE: its headings as links name them
anchors() {
    sed -nE 's/^#+ //p' "$1" | tr '[:upper:]' '[:lower:]' | sed -E 's/[^a-z0-9 -]//g; s/ /-/g'
}

# leads PAGE LINK: from this page's folder to a file that is there, and to a heading of it where one is named
leads() {
    local file=${2%%#*}
    if [ -n "$file" ]; then
        file=$(dirname "$1")/$file
    else
        file=$1
    fi
    [ -e "$file" ] && { [[ $2 != *"#"* ]] || anchors "$file" | grep -qxF -- "${2#*#}"; }
}

# tell_links PAGE: counts its links, and names each that leads nowhere
tell_links() {
    local link
    while read -r link; do
        tell "$1 links to $link, which is not there" leads "$1" "$link"
    done < <(linked "$1")
}
