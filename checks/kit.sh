# shellcheck shell=bash
# Sourced from the repository's root: the kit's tools, the archive and the program, and the archive again for other targets.
. checks/tools.sh
on_path "$0" rt || exit 1
kit=$(dirname "$(dirname "$(readlink -f "$(command -v rt)")")")
tools=$kit/toolchain
# The kit's own processor, and so the machine's.
machine=x86_64
target=$machine-unknown-linux-gnu

# fresh FILE: whether it is there and no older than what it is made of; what rt keeps in a crate's out/ is made too
fresh() {
    [ -f "$1" ] && [ -z "$(find -H crates.txt crates -name out -prune -o -type f -newer "$1" -print -quit)" ]
}

# quietly COMMAND..: what it says is shown only if it fails
quietly() {
    local said status=0
    said=$("$@" 2>&1 </dev/null) || status=$?
    [ "$status" -eq 0 ] || tail -n 40 <<<"$said" >&2
    return "$status"
}

# in_folder FOLDER COMMAND..: run there, as rt works on the crate in the current folder
in_folder() (
    cd "$1" && shift && "$@"
)

# archive: prove the C interface, write target/staticlib/libharpginger.a, for x86-64, and keep the proved module that it is compiled from, where that is not done
archive() {
    local made=crates/harpginger/out/libharpginger.a kept=target/staticlib
    fresh $kept/libharpginger.a && fresh $kept/harpginger.bc && return
    mkdir -p $kept && rm -f $kept/libharpginger.a &&
        quietly in_folder crates/harpginger rt lib && cp $made $kept/made.a &&
        keeping $kept/harpginger.bc harpginger lib && cmp $made $kept/made.a && mv $kept/made.a $kept/libharpginger.a
}

# program: prove the drive program and write target/bin/drive, where that is not done; what rt ci proved and built of the same sources serves
program() {
    local made=crates/drive/out/drive
    fresh target/bin/drive && return
    mkdir -p target/bin
    { fresh $made || quietly in_folder crates/drive rt run; } && cp $made target/bin/drive.new && mv target/bin/drive.new target/bin/drive
}

# system_headers: the kit has no C headers; gcc's and the machine's serve, as stdio's are the same on every 64-bit Linux
system_headers() {
    echo "-isystem $(gcc -print-file-name=include) -isystem /usr/include/$(gcc -print-multiarch)"
}

# link_c FILE FLAGS..: compile a C file and link it with the archive, to target/bin under the file's name
link_c() {
    local file=$1 name
    shift
    name=$(basename "$file" .c)
    mkdir -p target/obj target/bin
    "$tools/bin/clang" --target=$target -O2 "$@" -c "$file" -o "target/obj/$name.o" &&
        quietly "$kit/bin/rattle-link" --target $target --toolchain "$tools" -o "target/bin/$name" "target/obj/$name.o" target/staticlib/libharpginger.a
}

# keeping FILE CRATE WORDS..: rt in the crate's folder, over a view of the kit whose clang also leaves the module that it compiles in FILE
# A module of an earlier run must not pass for one that this run did not compile. The view is in a folder of its own, as rt keeps work beside its kit.
keeping() {
    local kept=$PWD/$1 crate=$2 room view status=0 part
    shift 2
    rm -f "$kept" && room=$(mktemp -d) || return 1
    view=$room/kit
    mkdir -p "$view/bin" "$view/toolchain/bin"
    for part in "$kit"/* "$kit"/toolchain/* "$kit"/bin/* "$kit"/toolchain/bin/*; do
        part=${part#"$kit"/}
        case $part in bin | toolchain | toolchain/bin | bin/rt | bin/rtlib.py | toolchain/bin/clang) ;; *) ln -s "$kit/$part" "$view/$part" ;; esac
    done
    # rt takes for its kit what it really lies in.
    cp "$kit/bin/rt" "$kit/bin/rtlib.py" "$view/bin/"
    cat >"$view/toolchain/bin/clang" <<END
#!/bin/sh
[ ! -f module.bc ] || cp module.bc "$kept" || exit 1
exec "$tools/bin/clang" "\$@"
END
    chmod 755 "$view/toolchain/bin/clang"
    quietly in_folder "crates/$crate" "$view/bin/rt" "$@" || status=$?
    rm -rf "$room"
    if [ "$status" -eq 0 ] && [ ! -s "$kept" ]; then
        echo "keeping: 'rt $*' of $crate compiled no module, so there is no $kept" >&2
        status=1
    fi
    return "$status"
}

# text MODULE FILE: the proved module as text, for a target that is still to be named
text() {
    "$tools/bin/clang" --target=$target -Wno-override-module -x ir "$1" -S -emit-llvm -O0 -Xclang -disable-llvm-passes -o "$2" &&
        sed -i -e '/^target /d' -e 's/ "target-cpu"="[^"]*"//' "$2"
}

# usual TARGET: clang's name of it and the options that its code is compiled with; Rust writes a riscv32's extensions into the name
usual() {
    case $1 in
        *-linux-*) echo "--target=$1 -O3 -fPIC" ;;
        riscv32-*) echo "--target=$1 -Os -march=rv32imac -mabi=ilp32" ;;
        riscv32*-*) echo "--target=riscv32-${1#*-} -Os -march=${1%%-*} -mabi=ilp32" | sed 's/-march=riscv/-march=rv/' ;;
        *) echo "--target=$1 -Os" ;;
    esac
}

# placed TEXT TARGET: whether the parts of each value of two parts lie in the target's memory as the module's own target has them
# A second part of 64 bits lies 8 bytes on, and so does a pointer, which is aligned to 4 bytes only where it has 32 bits: between the parts stand 32 bits that nothing uses.
# An x86 of 32 bits aligns 64-bit numbers to 4 bytes, too. So may its C, and the code is told to expect no more.
placed() {
    local others
    case $2 in
        x86_64-* | aarch64-*) return ;;
    esac
    parted 'i8' 'ptr' "$1"
    case $2 in
        i[3-6]86-*) sed -i -E 's/, align 8/, align 4/' "$1" && parted 'i8|i16|i32|ptr' 'i64' "$1" ;;
    esac
    others=$(grep -vE '^(!|attributes )' "$1" | grep -oE '\{ [^{}]+ \}' | grep -vxE '\{ ((i8|i16|i32|ptr)(, i32)?, i64|i64, i64|i8, i32, ptr|i8, (i8|i16|i32)) \}' | sort -u)
    [ -z "$others" ] || { echo "compiled: where the parts of $others lie on $2 is not known" >&2 && return 1; }
}

# parted FIRST SECOND TEXT: values of these two parts with 32 bits between them
parted() {
    sed -i -E "s/(extractvalue \{ ($1), $2 \} [^,]*, )1/\12/; s/\{ ($1), $2 \}/{ \1, i32, $2 }/g" "$3"
}

# compiled MODULE OBJECT TARGET OPTIONS..: the proved module through the kit's own clang for any target that it has
compiled() {
    local module=$1 object=$2 triple=$3
    shift 3
    text "$module" "$object.ll" && placed "$object.ll" "$triple" || return 1
    # shellcheck disable=SC2046
    "$tools/bin/clang" $(usual "$triple") --no-default-config -Wno-override-module -ffunction-sections -fdata-sections "$@" -c -x ir "$object.ll" -o "$object"
}

# archive_for TARGET FOLDER OPTIONS..: FOLDER/libharpginger.a from the proved module; for x86-64 without options it is the archive itself
archive_for() {
    local triple=$1 folder=$2
    shift 2
    archive && mkdir -p "$folder" && rm -f "$folder/libharpginger.a" || return 1
    if [ "$triple" = $target ] && [ $# -eq 0 ]; then
        cp target/staticlib/libharpginger.a "$folder/"
        return
    fi
    compiled target/staticlib/harpginger.bc "$folder/harpginger.o" "$triple" "$@" &&
        "$tools/bin/llvm-ar" rcs "$folder/libharpginger.a" "$folder/harpginger.o" && return
    rm -f "$folder"/harpginger.o*
    rmdir "$folder" 2>/dev/null
    return 1
}

# native_archive: target/native/libharpginger.a, which this machine's own tools can link
native_archive() {
    fresh target/native/libharpginger.a || archive_for $target target/native
}

# native_compare: the comparison with the library linked in, at target/native/cargo/release/compare
native_compare() {
    local folder=$PWD/target/native
    native_archive && program &&
        (cd second && HARPGINGER_ARCHIVE=$folder CARGO_TARGET_DIR=$folder/cargo cargo build --offline --release --quiet)
}

# needs ARCHIVE: what it asks of a C library and of the compiler's own, each once
needs() {
    readelf -sW "$1" | awk '$7 == "UND" && $8 != "" { print $8 }' | sort -u
}
