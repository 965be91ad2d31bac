# Sourced by the test scripts: counts what passes and what fails.
passed=0
failed=0

# run NAME COMMAND..
run() {
    local name=$1
    shift
    if "$@"; then
        passed=$((passed + 1))
        echo "passed: $name"
    else
        failed=$((failed + 1))
        echo "FAILED: $name"
    fi
}

# the last line, and the status
counted() {
    echo "$passed passed, $failed failed"
    [ "$failed" -eq 0 ]
}
