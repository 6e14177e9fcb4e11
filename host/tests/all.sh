#!/usr/bin/env bash
# The host tests that are named, programs and scripts, once they are built: all.sh TEST.. (make host-test builds and names them all).
# RUN, if set, runs the programs. The last line adds up what passed in each; one that fails, or stops before its own last line, counts
# as one failed.
set -euo pipefail
cd "$(dirname "$0")/../.."
. host/tests/check.sh
out=target/host/last.txt
[[ $# -gt 0 ]] || { echo "no test is named" && exit 1; }

for test in "$@"; do
    echo "== $test"
    run=
    [[ $test == *.sh ]] || run=${RUN:-}
    if $run "$test" 2>&1 | tee "$out" && [[ $(tail -n 1 "$out") =~ ^([0-9]+)\ passed,\ 0\ failed$ ]]; then
        passed=$((passed + BASH_REMATCH[1]))
    else
        failed=$((failed + 1))
        echo "FAILED: $test"
    fi
done
report
