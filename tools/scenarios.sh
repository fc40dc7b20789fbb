#!/usr/bin/env bash
# Runs each scenario of scenarios/ and compares its summary with the one beside it.
#
#   tools/scenarios.sh [PROGRAM]    PROGRAM is ./apsim where none is given
set -u
cd "$(dirname "${BASH_SOURCE[0]}")/.."
program=${1:-./apsim}
passed=0 failed=0
for scenario in scenarios/*.toml; do
    if "$program" solo <"$scenario" | cmp -s - "${scenario%.toml}.summary"; then
        passed=$((passed + 1))
    else
        failed=$((failed + 1))
        echo "differs: $scenario"
    fi
done
echo "$passed passed, $failed failed"
[ "$failed" = 0 ]
