# Sourced by the test scripts, with $room set to a folder of their own: counts tests, and writes those that failed.
passed=0
failed=0

# holds LABEL COMMAND..: a test that passes where the command succeeds
holds() {
    local label=$1
    shift
    if "$@" >"$room/said" 2>&1; then
        passed=$((passed + 1))
        return
    fi
    failed=$((failed + 1))
    echo "FAILED: $label"
    head -n 5 "$room/said" | sed 's/^/    /'
}

# refused LABEL COMMAND..: a test that passes where the command fails
refused() {
    local label=$1
    shift
    holds "$label" fails "$@"
}
fails() { ! "$@"; }

# add COMMAND..: the tests of a command whose last line is 'N passed, M failed'
add() {
    "$@" >"$room/said" 2>&1
    local status=$? last
    last=$(tail -n 1 "$room/said")
    if [[ $last =~ ^([0-9]+)\ passed,\ ([0-9]+)\ failed$ ]]; then
        passed=$((passed + BASH_REMATCH[1]))
        failed=$((failed + BASH_REMATCH[2]))
        [ "$status" -eq 0 ] || [ "${BASH_REMATCH[2]}" -gt 0 ] || failed=$((failed + 1))
        sed '$d' "$room/said"
    else
        failed=$((failed + 1))
        echo "FAILED: $* ended with status $status and no count"
        tail -n 5 "$room/said"
    fi
}

# tally: the last line, and the status to exit with
tally() {
    echo "$passed passed, $failed failed"
    [ "$failed" -eq 0 ]
}
