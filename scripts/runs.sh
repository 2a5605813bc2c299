#!/usr/bin/env bash
# Runs each stored run: runs/PROGRAM/NAME.in through target/bin/PROGRAM must print runs/PROGRAM/NAME.out.
# The last line is 'N passed, M failed'.
set -euo pipefail
cd "$(dirname "$0")/.."

passed=0
failed=0
for input in runs/*/*.in; do
    program=$(basename "$(dirname "$input")")
    if "target/bin/$program" <"$input" | cmp -s - "${input%.in}.out"; then
        passed=$((passed + 1))
    else
        failed=$((failed + 1))
        echo "differs: target/bin/$program <$input, expected ${input%.in}.out"
    fi
done
echo "$passed passed, $failed failed"
[ "$failed" -eq 0 ]
