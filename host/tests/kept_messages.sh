#!/usr/bin/env bash
# The kept messages of host/wire: each reads as it is said beside it, and both are what wire_messages writes. kept_messages.sh [FOLDER],
# where the programs are. Another reader, that nobody here wrote, is asked by `make wire-peer`.
set -euo pipefail
programs=$(realpath "${1:-${PROGRAMS:-target/host}}")
cd "$(dirname "$0")/../.."
. host/tests/check.sh
kept=host/wire
written=$(mktemp -d)
trap 'rm -rf "$written"' EXIT
mkdir "$written/cancel" "$written/response"

writes() { ${RUN:-} "$programs/wire_messages" "$written"; }

# reads KIND NAME: a refusal is a reading too.
reads() { diff "$kept/$1/$2.reading" <(${RUN:-} "$programs/$1_from_wire" <"$kept/$1/$2.hex"); }

check "the messages are written" writes
for kind in cancel response; do
    check "as they are kept: $kind" diff -r "$kept/$kind" "$written/$kind"
    for message in "$kept/$kind"/*.hex; do
        name=$(basename "$message" .hex)
        check "$kind $name" reads "$kind" "$name"
    done
done
report
