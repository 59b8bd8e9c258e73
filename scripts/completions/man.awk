# The manual page but for its statuses, from the lines of data.awk.

BEGIN {
    FS = "\t"
    print ".\\\" Made by scripts/refresh-completions from the texts of `elide --help` and the statuses of docs/FAULTS.md."
}

# A text as roff prints it; what stands between backquotes is bold.
function roff(text) {
    gsub(/\\/, "\\e", text)
    gsub(/-/, "\\-", text)
    gsub(/'/, "\\(aq", text)
    gsub(/\^/, "\\(ha", text)
    gsub(/~/, "\\(ti", text)
    while (sub(/`/, "\\fB", text) && sub(/`/, "\\fR", text));
    return (text ~ /^\./ ? "\\\\\\&" : "") text
}

function bold(text) { return "\\fB" roff(text) "\\fR" }
function italic(text) { return "\\fI" roff(text) "\\fR" }

# How an option or a word is written, as in the line of its use.
function usage() {
    if ($4 == "Word") return italic($3)
    if ($4 == "FreeWord") return "[" italic($3) "]"
    if ($4 == "FreeWords") return "[" italic($3) "..]"
    if ($4 == "Flag") return bold("--" $3)
    return bold("--" $3) " " italic($5)
}

# How often an option has to be given or can be, and its value where it is not.
function manner() {
    if ($4 == "Needed") return " It has to be given."
    if ($4 == "Several") return " It can be given several times."
    if ($4 == "Default") return " [default: " roff($6) "]"
    return ""
}

function end_command() {
    if (example != "") print ".PP\nExample:\n.PP\n.EX\n" roff(example) "\n.EE"
}

$1 == "program" {
    print ".TH ELIDE 1 \"\" \"elide " $3 "\" \"User Commands\""
    about = roff($2)
    sub(/\.$/, "", about)
    print ".SH NAME\nelide \\- " tolower(substr(about, 1, 1)) substr(about, 2)
    print ".SH SYNOPSIS\n.B elide\n.I COMMAND\n.RI [ OPTIONS ]\n.br\n.B elide help\n.RI [ COMMAND ]\n.br\n.B elide \\-\\-version"
    print ".SH COMMANDS"
}

$1 == "command" {
    end_command()
    print ".SS elide " $2 "\n" roff($3) "."
    example = $4
    sub(/^Example: /, "", example)
}

$1 == "option" { print ".TP\n" usage() "\n" roff($7) "." manner() }

END { end_command() }
