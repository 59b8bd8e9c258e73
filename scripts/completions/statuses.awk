# The section of the exit statuses of the manual page, from the table in docs/FAULTS.md.

BEGIN { FS = " *\\| *" }

function roff(text) {
    gsub(/-/, "\\-", text)
    gsub(/'/, "\\(aq", text)
    while (sub(/`/, "\\fB", text) && sub(/`/, "\\fR", text));
    return text
}

/^\| Status \|/ {
    print ".SH EXIT STATUS"
    inside = 1
    out = $4
    err = $5
    next
}

inside && !/^\|/ { exit }

inside && $2 ~ /^[0-9]+$/ {
    print ".TP\n.B " $2 "\n" roff($3) ".\n" out ": " roff($4) ".\n" err ": " roff($5) "."
    count++
}

END {
    if (count == 0) {
        print FILENAME ": no table of statuses" | "cat 1>&2"
        exit 1
    }
}
