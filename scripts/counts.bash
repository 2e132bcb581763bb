# shellcheck shell=bash
# Counts checks in groups, and reports them. Scripts that check things source this file.

passed=0
failed=0
group_passed=0
group_failed=0

# Counts a check, and reports one that failed.
count() {
    if "${@:2}"; then
        group_passed=$((group_passed + 1))
    else
        group_failed=$((group_failed + 1))
        echo "failed: $1"
    fi
}

# Ends a group.
group() {
    echo "$1: $group_passed passed, $group_failed failed"
    passed=$((passed + group_passed))
    failed=$((failed + group_failed))
    group_passed=0
    group_failed=0
}

# Counts a group of a given size: the lines of a file that match one pattern passed, and those that match another failed. If
# none failed but the number of passed ones is not the given size, that is a failure too, so that an empty report never passes.
reported() {
    group_passed=$(grep -c -E "$4" "$3")
    group_failed=$(grep -c -E "$5" "$3")
    if ((group_failed == 0 && group_passed != $2)); then
        group_failed=1
        echo "failed: $group_passed passed, but there should be $2"
    fi
    group "$1"
}

# Ends the checks.
finish() {
    echo "$passed passed, $failed failed"
    exit $((failed > 0))
}
