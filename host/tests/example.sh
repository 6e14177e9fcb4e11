#!/usr/bin/env bash
# What the examples print, compared with what is stored beside them: example.sh [FOLDER], where their programs are.
set -euo pipefail
programs=$(realpath "${1:-${PROGRAMS:-target/host}}")
cd "$(dirname "$0")/../.."
. host/tests/check.sh
cancel=$programs/cancel_from_wire
response=$programs/response_from_wire

# status WANTED COMMAND..: what the command ends with.
status() {
    local wanted=$1 given=0
    shift
    ${RUN:-} "$@" >/dev/null </dev/null || given=$?
    [[ $given -eq $wanted ]]
}

# Two cells, both indicators; then the same without its last byte.
message='00 15 00 3d 00 0005 004e 00 02 0007 008e 00 02 0000 0094 00 1c 0001 0095 00 09 00 00f110 0000000100
    0095 00 09 00 00f110 0000000200 009d 00 01 00 00dc 00 05 0444800400'

# Two cells, one sent twice and one 65,535 times.
told='40 15 00 2d 00 0002 004e 00 02 0007 0096 00 20 0001 0097 00 0b 00 00f110 0000000100 0002 0097 00 0b 00 00f110 0000000200 ffff'

check "two yards" diff host/example/two_yards.out <(${RUN:-} "$programs/two_yards")
check "a cancel answered on the wire" diff host/example/answer_on_wire.out <(${RUN:-} "$programs/answer_on_wire")
check "a response" diff host/example/response_from_wire.out <(${RUN:-} "$response" "$told")
check "it was read" status 0 "$response" "$told"
check "it is no cancel" status 1 "$cancel" "$told"
check "no response at all" status 1 "$response"
check "a cancel is no response" status 1 "$response" "$message"
check "half a byte of a response" status 2 "$response" "${told%f}"
check "a cancel" diff host/example/cancel_from_wire.out <(${RUN:-} "$cancel" "$message")
check "from standard input" diff host/example/cancel_from_wire.out <(${RUN:-} "$cancel" <<<"$message")
check "it was read" status 0 "$cancel" "$message"
check "it is cut short" status 1 "$cancel" "${message%00}"
check "no message at all" status 1 "$cancel"
check "half a byte" status 2 "$cancel" "${message%0}"
check "no digits" status 2 "$cancel" "${message%0}g"
report
