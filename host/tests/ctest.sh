#!/usr/bin/env bash
# The example and the tests once more, as a host that builds with CMake runs them.
set -euo pipefail
cd "$(dirname "$0")/../.."
. host/tests/check.sh
build=target/host/ctest

built() { cmake -S host -B "$build" >/dev/null && cmake --build "$build" >/dev/null; }

if command -v cmake >/dev/null; then
    rm -rf "$build"
    check "built by CMake" built
    check "ctest" ctest --test-dir "$build" --no-tests=error --output-on-failure
else
    echo "skipped: cmake is not installed"
fi
report
