# shellcheck shell=bash
# Sourced: which tool a command needs, and what brings it.

# on_path COMMAND TOOL..: whether each tool is on the path; each that is not is named on standard error
on_path() {
    local command=$1 tool from status=0
    shift
    for tool in "$@"; do
        command -v "$tool" >/dev/null && continue
        case $tool in
        rt) from="the command of the Rattle kit; put the kit's bin folder on the path" ;;
        gcc) from="the C compiler; it comes with the system's package gcc" ;;
        cargo) from="Rust's build tool; it comes with Rust, from rustup or the system's packages" ;;
        *) from="it comes with the system's packages" ;;
        esac
        echo "$command needs $tool, which is not on the path: $from" >&2
        status=1
    done
    return "$status"
}
