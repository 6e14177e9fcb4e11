#!/usr/bin/env bash
# The kept messages, read by tshark, which nobody here wrote, and by the library: tshark.sh FOLDER, where the programs are that show
# messages (make wire-peer names it; without a folder it only sees whether tshark is there). What the library accepts must read the same.
# Of what it refuses it is told what tshark reads: tshark shows a damaged message as far as it goes, and refuses nothing that a receiver
# must.
set -euo pipefail
programs=${1:+$(realpath "$1")}
cd "$(dirname "$0")/../.."
. host/tests/check.sh
out=target/host/tshark

for tool in tshark text2pcap; do
    if ! command -v "$tool" >/dev/null; then
        echo "not installed: $tool. Debian has it in the package tshark (apt-get install tshark); tried with 4.0.17"
        exit 1
    fi
done
[[ -n $programs ]] || exit 0

# The bytes as text2pcap takes them: an offset before each line, and offset 0 begins a packet.
dump() {
    awk '{ bytes = gsub(/../, "& ") } FNR == 1 { at = 0 } { printf "%06x %s\n", at, $0; at += bytes }' "$@"
}

# F1AP goes over SCTP, to port 38472 and with payload protocol identifier 62.
capture() { text2pcap -q -S 38472,38472,62 - "$1/messages.pcap" 2>"$1/text2pcap.txt"; }

fields=(frame.number f1ap.F1AP_PDU f1ap.procedureCode f1ap.TransactionID f1ap.NumberofBroadcastRequest
    f1ap.Cancel_all_Warning_Messages_Indicator f1ap.message_Identifier f1ap.serialNumber f1ap.pLMN_Identity f1ap.nRCellIdentity
    f1ap.NID _ws.expert.message f1ap.numberOfBroadcasts f1ap.gNB_CU_UE_F1AP_ID)

read_by_tshark() {
    tshark -r "$1/messages.pcap" -T fields -E 'separator=|' -E occurrence=a -E aggregator=, "${fields[@]/#/-e}" 2>"$1/tshark.txt" |
        awk -v to="$1" -f host/wire/tshark.awk
}

# compare KIND: the messages of host/wire/KIND, by tshark and by KIND_from_wire.
compare() {
    local kind=$1 to=$out/$1 packet=0 message name
    local messages=("host/wire/$kind"/*.hex)
    mkdir -p "$to"
    dump "${messages[@]}" | capture "$to"
    read_by_tshark "$to"
    for message in "${messages[@]}"; do
        packet=$((packet + 1))
        name=$(basename "$message" .hex)
        if ${RUN:-} "$programs/${kind}_from_wire" <"$message" >"$to/$name.ours"; then
            check "$kind $name, as tshark reads it" diff "$to/$name.ours" "$to/$packet.tshark"
        else
            echo "$kind $name: ours '$(sed 's/:.*//' "$to/$name.ours")', tshark '$(paste -sd ' ' "$to/$packet.tshark" | cut -c 1-100)'"
        fi
        check "$kind $name, as it is kept" diff "${message%.hex}.reading" "$to/$name.ours"
    done
}

rm -rf "$out"
tshark --version 2>/dev/null | sed 's/\.Running.*//; q'
compare cancel
compare response
report
