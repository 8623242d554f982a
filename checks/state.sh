# shellcheck shell=bash
# Sourced from the repository's root, after checks/kit.sh and bench/sizes.sh: the proved function of a block's state, for a program in C that counts its fetches.
# shellcheck disable=SC2154 # target is the kit's

# for_c FILE: the proved module as text, with block::state_of under a name that C can call, if it still takes what checks/blocks.h declares
for_c() {
    archive && text target/staticlib/harpginger.bc "$1" || return 1
    if ! grep -qE '^define internal void @"block::state_of"\(ptr [^,]*, ptr [^,]*, i64 [^,]*, i8 [^,]*\) ' "$1"; then
        echo "checks/state.sh: the module has no block::state_of as checks/blocks.h declares it" >&2
        return 1
    fi
    sed -i -e '/^define internal void @"block::state_of"(/s/ internal / /' -e 's/@"block::state_of"(/@harpginger_state_of(/g' "$1"
}

# state_object OBJECT OPTIONS..: that module compiled for this machine as the archive is
state_object() {
    local object=$1 triple=$target
    shift
    # shellcheck disable=SC2046
    mkdir -p "$(dirname "$object")" && for_c "$object.module.ll" && compiled "$object.module.ll" "$object" "$triple" $(own_options "$triple") "$@"
}
