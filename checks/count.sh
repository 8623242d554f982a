# shellcheck shell=bash
# Sourced: counts checks and parts, and says the sums on the last line.
passed=0
failed=0

# check LABEL COMMAND..: run it, count it and say how it went
check() {
    local label=$1
    shift
    if "$@"; then
        passed=$((passed + 1))
        echo "passed: $label"
    else
        failed=$((failed + 1))
        echo "FAILED: $label"
    fi
}

# tell MESSAGE COMMAND..: count it, and say the message only where the command fails
tell() {
    local message=$1
    shift
    if "$@"; then
        passed=$((passed + 1))
    else
        failed=$((failed + 1))
        echo "$message"
    fi
}

# note WORDS..: a check that is not run here, and why
note() {
    echo "left out: $*"
}

# count LABEL COMMAND..: run a part and add its last line of the form 'N passed, M failed'; with no such line it counts as one check
# A part that fails and tells no failure, or that counts nothing, is a failure.
count() {
    local label=$1 out status line good bad
    shift
    out=$(mktemp)
    "$@" 2>&1 | tee "$out"
    status=${PIPESTATUS[0]}
    line=$(grep -E '^[0-9]+ passed, [0-9]+ failed$' "$out" | tail -n 1)
    rm -f "$out"
    good=${line%% passed*}
    bad=${line#*, }
    bad=${bad%% failed}
    if [ -z "$line" ]; then
        good=$((status == 0))
        bad=$((status != 0))
    elif [ "$bad" -eq 0 ] && { [ "$status" -ne 0 ] || [ "$good" -eq 0 ]; }; then
        bad=1
    fi
    passed=$((passed + good))
    failed=$((failed + bad))
    echo "-- $label: exit status $status"
}

# counted: the last line, and whether something passed and nothing failed
counted() {
    echo "$passed passed, $failed failed"
    [ "$failed" -eq 0 ] && [ "$passed" -gt 0 ]
}
