# shellcheck shell=bash
# Sourced from the repository's root by the benchmarks and their checks: building them, and putting a table into docs/BENCHMARKS.md or another page.

# The parts of docs/BENCHMARKS.md that are written from docs/figures.
page_parts=(summary machine yardsticks calls forms moves runs programs counts fetches sizes)

# build: the archive and the program for this machine, the second program, and the benchmarks
build() {
    on_path "$0" gcc cargo && native_archive && program &&
        cargo build --offline --release --quiet --manifest-path second/Cargo.toml &&
        build_benchmarks
}

# build_benchmarks: the archive for this machine and the benchmarks alone, which need no program
build_benchmarks() {
    on_path "$0" gcc cargo && native_archive &&
        HARPGINGER_ARCHIVE=$PWD/target/native cargo build --offline --release --quiet --manifest-path bench/Cargo.toml
}

# print_parts FOLDER: each of these parts as the files in docs/figures have it, to a file of its own
print_parts() {
    local part
    for part in "${page_parts[@]}"; do
        bench/target/release/figures page "$part" docs/figures >"$1/$part.md" || return 1
    done
}

# put PART FILE [PAGE]: the text between the part's two marks in the page becomes that of the file
put() {
    local mark page=${3-docs/BENCHMARKS.md}
    for mark in "$1" "end of $1"; do
        grep -qx "<!-- $mark -->" "$page" || {
            echo "$page has no mark $mark" >&2
            return 1
        }
    done
    awk -v first="<!-- $1 -->" -v last="<!-- end of $1 -->" -v file="$2" '
        $0 == last { within = 0 }
        !within { print }
        $0 == first { within = 1; print ""; while ((getline line < file) > 0) print line }
    ' "$page" >"$page.new" && cat -s "$page.new" >"$page" && rm "$page.new"
}
