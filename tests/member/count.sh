# Counts the cases of a runner; sourced by those of this folder.
passed=0
failed=0

# A case: its name, what was expected and what was got.
same() {
    if [ "$2" = "$3" ]; then
        passed=$((passed + 1))
    else
        failed=$((failed + 1))
        printf 'FAILED %s\n  expected: %s\n  got:      %s\n' "$1" "$2" "$3"
    fi
}

# The last line of a runner; its exit status is 0 where all passed.
summary() {
    echo "$1: $passed passed, $failed failed"
    [ "$failed" = 0 ]
}
