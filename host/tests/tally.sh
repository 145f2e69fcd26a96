# shellcheck shell=bash
# What the tests in this folder share: each of their functions named test_.. is one case. A case runs by itself in an empty folder, and
# fails where an expectation does or where it ends with another code than 0.
set -euo pipefail

# shellcheck disable=SC2034 # for the tests
root=$(unset CDPATH && cd "$(dirname "${BASH_SOURCE[0]}")/../.." && pwd)
room=$(mktemp -d)
trap 'rm -rf "$room"' EXIT

# expect WHAT WANTED SEEN
expect() {
    [ "$2" != "$3" ] || return 0
    printf '%s: wanted %q, but it was %q\n' "$1" "$2" "$3"
    exit 1
}

# Runs a command and keeps its code, what it wrote and what it said on descriptor 2.
observe() {
    code=0
    "$@" >wrote 2>said || code=$?
}

# expect_end CODE SAID: how the command that was observed ended.
expect_end() {
    expect 'descriptor 2' "$2" "$(<said)"
    expect 'code' "$1" "$code"
}

# Waits until a command succeeds; a minute is more than it ever needs, so that only what never comes is waited for in vain.
await() {
    for _ in {1..1200}; do
        if "$@"; then return; fi
        sleep 0.05
    done
    printf 'waited in vain for: %s\n' "$*"
    exit 1
}

run_case() {
    mkdir "$room/$1"
    cd "$room/$1"
    "$1"
}

tally() {
    local name code passed=0 failed=0
    for name in $(compgen -A function test_); do
        # Not in a condition, where a case would not end at the first command that fails.
        set +e
        (set -e && run_case "$name") >"$room/$name.log" 2>&1
        code=$?
        set -e
        if [ "$code" -eq 0 ]; then
            passed=$((passed + 1))
        else
            failed=$((failed + 1))
            printf '%s FAILED\n' "$name"
            cat "$room/$name.log"
        fi
    done
    printf '%s: %s passed, %s failed\n' "${0##*/}" "$passed" "$failed"
    [ "$failed" -eq 0 ]
}
