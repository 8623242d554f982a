# shellcheck shell=bash
# Sourced from the repository's root, after checks/kit.sh: bytes of code, constants and data of the archives, their deepest stack, and what they need.
# shellcheck disable=SC2154 # target and tools are the kit's
functions=(settings erase read change version)
sized=(thumbv7em-none-eabi riscv32-unknown-elf i686-unknown-linux-gnu aarch64-unknown-linux-gnu "$target")
# It calls itself for blocks of half as many cells, from 64 at most down to 2.
again=parity::later_stage times=6

# own_options TARGET: what the kit compiles the archive itself with, beside the usual ones; no other target has more
own_options() {
    [ "$1" != "$target" ] || echo "-march=x86-64-v2 -mllvm -trap-unreachable -mllvm -no-trap-after-noreturn -mllvm -no-x86-call-frame-opt -mllvm -disable-machine-licm -mllvm -disable-postra-machine-licm -mllvm -sink-common-insts=false"
}

# bytes OBJECT: of code, of constants and of writable data, by the flags of the sections that are loaded
bytes() {
    local size flags code=0 constants=0 data=0
    while read -r size flags; do
        case $flags in
            *W*) data=$((data + 16#$size)) ;;
            *X*) code=$((code + 16#$size)) ;;
            *) constants=$((constants + 16#$size)) ;;
        esac
    done < <(readelf -SW "$1" | sed -nE 's/^ *\[ *[0-9]+\] [^ ]+ +[A-Z_]+ +[0-9a-f]+ [0-9a-f]+ ([0-9a-f]+) [0-9a-f]+ +([A-Zoxl]*A[A-Zoxl]*) .*/\1 \2/p')
    printf '%s\t%s\t%s' "$code" "$constants" "$data"
}

# code_of OBJECT: its instructions as bytes
code_of() {
    local names
    mapfile -t names < <(readelf -SW "$1" | grep -oE ' \.text[^ ]*' | tr -d ' ')
    readelf "${names[@]/#/-x}" "$1" | grep '^ *0x'
}

# frames TARGET FOLDER: FOLDER/frames.su, of the code that the archive has and no other
frames() {
    # shellcheck disable=SC2046
    compiled target/staticlib/harpginger.bc "$2/frames.o" "$1" $(own_options "$1") -fstack-usage &&
        cmp "$2/frames.o" <("$tools/bin/llvm-ar" p "$2/libharpginger.a")
}

# told TARGET FOLDER: FOLDER/told.ll, the module with a table for unwinding, which must leave every instruction as it is
told() {
    text target/staticlib/harpginger.bc "$2/told.ll" && sed -i -E 's/^(attributes .*\{.* nounwind) /\1 uwtable /' "$2/told.ll" || return 1
    # shellcheck disable=SC2046
    compiled "$2/told.ll" "$2/told.o" "$1" $(own_options "$1") && cmp <(code_of "$2/told.o") <(code_of "$2/frames.o")
}

# calls TARGET FOLDER: FOLDER/calls.s, the same code as text; for an x86 with the table for unwinding, which says what is pushed before a call
calls() {
    local module=target/staticlib/harpginger.bc
    case $1 in *86*) module=$2/told.ll && told "$1" "$2" || return 1 ;; esac
    # shellcheck disable=SC2046
    compiled "$module" "$2/calls.s" "$1" $(own_options "$1") -S -Wno-unused-command-line-argument
}

# stacks TARGET FOLDER: the deepest stack of each function, and how many frames of the one that calls itself are in it
stacks() {
    local word=0
    case $1 in x86_64-*) word=8 ;; i[3-6]86-*) word=4 ;; esac
    awk -v word=$word -v wanted="${functions[*]}" -v again=$again -v times=$times -f bench/stack.awk "$2/frames.su" "$2/calls.s"
}

# wants ARCHIVE: what it needs, in words and by name
wants() {
    needs "$1" | awk '
        $1 == "_GLOBAL_OFFSET_TABLE_" { next }
        /mem(cpy|move)/ { copying = copying ", " $1; next }
        /mem(set|clr)/ { filling = filling ", " $1; next }
        /div|mod/ { division = division ", " $1; next }
        { print "bench/run sizes: no word for " $1 >"/dev/stderr"; exit 1 }
        function say(what, names) { if (names != "") { printf "%s%s (%s)", said, what, substr(names, 3); said = "; " } }
        END { say("copying", copying); say("filling", filling); say("64-bit division", division) }'
}

# size_of TARGET: its line of the file
size_of() {
    local folder=target/bench/sizes/$1 found needed
    archive_for "$1" "$folder" && frames "$1" "$folder" && calls "$1" "$folder" && found=$(stacks "$1" "$folder") && needed=$(wants "$folder/libharpginger.a") &&
        printf '%s\t%s\t%s\t%s\t%s\n' "$1" "$(usual "$1" | sed "s/^--target=[^ ]* //")$(own_options "$1" | sed "s/^/ /")" "$(bytes "$folder/frames.o")" "$found" "$needed"
}

# clang_version: of the kit's own compiler
clang_version() {
    "$tools/bin/clang" --version | sed -nE '1s/.*version ([0-9.]+).*/clang \1/p'
}

# sizes CODE: the file of all targets, which is the same on every machine
sizes() {
    local triple
    printf '# %s%s %s\t%s\n' "$(rt version | cut -d ' ' -f 1)" "'s" "$(clang_version)" "$1"
    printf '# target\toptions\tcode\tconstants\twritable data\tsettings\terase\tread\tchange\tversion\tframes\tneeds\n'
    for triple in "${sized[@]}"; do
        size_of "$triple" || { echo "bench/run sizes: $triple" >&2 && return 1; }
    done
}
