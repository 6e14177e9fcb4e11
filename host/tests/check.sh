# shellcheck shell=bash
# What the test scripts share: counting what passed. They are run from the repository's root.
passed=0
failed=0

# check NAME COMMAND..: the command must succeed.
check() {
    local name=$1
    shift
    if "$@"; then
        passed=$((passed + 1))
    else
        failed=$((failed + 1))
        echo "FAILED: $name"
    fi
}

# The last line of every test script, and its status.
report() {
    echo "$passed passed, $failed failed"
    [[ $failed -eq 0 ]]
}
