#!/usr/bin/env bash
# The names of libpws.a: it asks its host for none, not even for one of the C library's, and has the functions that pws.h declares.
set -euo pipefail
cd "$(dirname "$0")/../.."
. host/tests/check.sh
library=target/staticlib/libpws.a

asks_for_nothing() {
    local names
    names=$(nm -u "$library") && ! grep -qwE '[Uvw]' <<<"$names"
}
declared() { grep -oE '\bpws_[a-z_]+\(' host/include/pws.h | tr -d '(' | sort -u; }
has_what_is_declared() { [[ $(nm -g --defined-only "$library" | awk '$2 == "T" { print $3 }' | sort) == "$(declared)" ]]; }

check "no name is asked for" asks_for_nothing
check "the functions are those of pws.h" has_what_is_declared
report
