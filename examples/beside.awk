# The script beside the report: awk -f examples/beside.awk REPORT SCRIPT
# Every request of the script is answered by one "ok" or "no" line and, behind "ok", its rows.
# Seconds in a row that are answered alike are told once, with how many they are.

function answer(k) {
    return k <= blocks ? block[k] : "(the program has stopped)"
}

# The report first: block k is the lines that answer request k.
FNR == NR {
    if ($1 == "ok" || $1 == "no") {
        blocks++
    }
    block[blocks] = block[blocks] (block[blocks] == "" ? "" : "\n") $0
    next
}

# Lines that ask for nothing stand alone.
/^[ \t]*(#|$)/ || $1 == "cell" {
    print
    next
}

{
    last = said + ($1 == "seconds" ? $2 : 1)
    left = $0
    while (said < last) {
        first = said + 1
        do {
            said++
        } while (said < last && answer(said + 1) == answer(first))
        n = split(answer(first), lines, "\n")
        if (said > first) {
            lines[1] = lines[1] " (" said - first + 1 " times)"
        }
        for (i = 1; i <= n; i++) {
            printf "%-74s  %s\n", left, lines[i]
            left = ""
        }
    }
}

# A table that is refused answers before any request, and is the only line.
END {
    if (said < blocks) {
        print block[blocks]
    }
}
