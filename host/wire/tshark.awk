# What tshark read in the fields of tshark.sh, a packet a line, in the words of example/cancel_from_wire.cpp and
# example/response_from_wire.cpp: a file for each packet, named by its number in the capture.
BEGIN { FS = "|" }

function told(line) { print line > file }

# NR CGI is the PLMN and the first nine digits of the cell, behind which there is padding. Behind it what is said beside each cell. The
# last cells are those of a dedicated delivery list, one for each of its UEs, which is not shown.
function told_cells(without_any, beside,    cells, cell, plmn, ue, count, k) {
    split($9, plmn, ",")
    cells = split($10, cell, ",") - split($14, ue, ",")
    split(beside, count, ",")
    if (cells == 0) {
        told(without_any)
    }
    for (k = 1; k <= cells; ++k) {
        told("cell " plmn[k] substr(cell[k], 1, 9) (beside == "" ? "" : " " count[k]))
    }
}

function cancel() {
    told("transaction " $4)
    told("requested " $5)
    if ($6 != "") {
        told("cancel-all")
    }
    if ($7 != "") {
        told("notification " $7 " " $8)
    }
    told_cells("everywhere", "")
}

function response(name) {
    told(name)
    told("transaction " $4)
    told_cells("no cells", $13)
}

{
    file = to "/" $1 ".tshark"
    if ($2 == "0" && $3 == "21") {
        cancel()
    } else if ($2 == "1" && $3 == "20") {
        response("WRITE-REPLACE WARNING RESPONSE")
    } else if ($2 == "1" && $3 == "21") {
        response("PWS CANCEL RESPONSE")
    } else {
        told("another message: choice " $2 ", procedure code " $3)
    }
    if ($11 != "") {
        told("NID " $11)
    }
    if ($12 != "") {
        told("remark: " $12)
    }
    close(file)
}
