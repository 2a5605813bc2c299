#!/usr/bin/env bash
# Runs every part of the tests in order. Where all pass, the last line is 'N passed, 0 failed' with
# the sum of the parts' counts; at the first that fails it stops with no such line.
set -euo pipefail
cd "$(dirname "$0")/.."

total=0
last=$(mktemp)
trap 'rm -f "$last"' EXIT

# fail NAME
fail() {
    echo "FAILED: $1" >&2
    exit 1
}

# shown NAME COMMAND...: runs a command and puts its name before each line that it prints.
shown() {
    local name=$1
    shift
    echo "$name: $*"
    "$@" | tee "$last" | sed -u "s/^/$name: /" || fail "$name"
}

# counted NAME COMMAND...: the command's last line is 'N passed, 0 failed'; N is added.
counted() {
    shown "$@"
    [[ $(tail -n 1 "$last") =~ ^([1-9][0-9]*)\ passed,\ 0\ failed$ ]] || fail "$1"
    total=$((total + BASH_REMATCH[1]))
}

# proved: what rt ci printed has its line 'rt: ok', and no must-fail edit is a bad one, which rt ci lets pass.
proved() {
    local ok
    ok=$(grep '^rt: ok' "$last") || fail 'rt ci'
    [[ ! $ok =~ ,\ [1-9][0-9]*\ bad ]] || fail 'rt ci: bad must-fail edits'
}

# programs: rt ci leaves each program that it proved, built and ran; make builds what is not there.
programs() {
    local main name
    for main in crates/*/src/main.rt; do
        name=${main#crates/}
        name=${name%%/*}
        [ ! -f "crates/$name/out/$name" ] || install -D "crates/$name/out/$name" "target/bin/$name"
    done
    make programs
}

counted 'rt ci' rt ci
proved
shown 'programs' programs
shown 'archive' make archive
counted 'source test' make source-test
counted 'runs' make runs
counted 'host tests' make host-tests
counted 'compare' make compare
counted 'compare-records' make compare-records
counted 'compare-lister' make compare-lister
counted 'compare-replay' make compare-replay
counted 'compare-codec' make compare-codec
counted 'compare-jobs' make compare-jobs
counted 'compare-plans' make compare-plans
echo "$total passed, 0 failed"
