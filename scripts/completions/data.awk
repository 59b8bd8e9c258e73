# Prints the texts of `elide --help`, read from the files that they are data in (crates/elide_args/src: line.rt, options.rt,
# subcommands.rt), as lines of columns with tabs between:
#
#   program ABOUT VERSION EXAMPLE
#   command NAME ABOUT EXAMPLE
#   option COMMAND NAME FORM VALUE DEFAULT HELP WORDS     in the order of the help; VALUE and DEFAULT are empty where there is
#                                                         none, WORDS where a value is more than one of a few words; of
#                                                         several values VALUE has their names with spaces between
#
# What it cannot read is told, with status 1, so that no option is left out in silence.

function fail(why) {
    if (!failed) print FILENAME ": " why | "cat 1>&2"
    failed = 1
    exit 1
}

# Splits a line into tokens: words, texts in double quotes (marked by a leading quote) and single marks; `::` is one mark.
{
    rest = $0
    while (rest != "") {
        if (match(rest, /^[ \t]+/)) {
        } else if (match(rest, /^\/\/.*/)) {
        } else if (match(rest, /^"([^"\\]|\\.)*"/)) {
            token[++tokens] = "\"" unescaped(substr(rest, 2, RLENGTH - 2))
        } else if (substr(rest, 1, 1) == "\"") {
            fail("line " FNR ": a text that does not end on its line")
        } else if (match(rest, /^([A-Za-z_][A-Za-z_0-9]*|[0-9]+|::)/)) {
            token[++tokens] = substr(rest, 1, RLENGTH)
        } else {
            RLENGTH = 1
            token[++tokens] = substr(rest, 1, 1)
        }
        rest = substr(rest, RLENGTH + 1)
    }
}

# What a text says; of the escapes only those of a quote and a backslash are known.
function unescaped(text,    said, i, letter) {
    if (text ~ /\t/) fail("line " FNR ": a tab in a text")
    for (i = 1; i <= length(text); i++) {
        letter = substr(text, i, 1)
        if (letter == "\\") {
            letter = substr(text, ++i, 1)
            if (letter != "\"" && letter != "\\") fail("line " FNR ": an unknown escape in a text")
        }
        said = said letter
    }
    return said
}

function is_text(at) { return substr(token[at], 1, 1) == "\"" }
function text_at(at) { return substr(token[at], 2) }

# Keeps the fields of a constant, from its opening brace on: the texts of each as `field, name, 1` and so on, and the words.
function keep_fields(name, at,    field, depth) {
    depth = 0
    do {
        if (token[at] == "{" || token[at] == "[" || token[at] == "(") depth++
        else if (token[at] == "}" || token[at] == "]" || token[at] == ")") depth--
        else if (depth == 1 && token[at + 1] == ":") field = token[at]
        else if (is_text(at)) text[name, field, ++texts[name, field]] = text_at(at)
        else if (token[at] ~ /^[A-Za-z]/) word[name, field, ++words[name, field]] = token[at]
        at++
    } while (depth > 0 && at <= tokens)
}

# Keeps the constants of the subcommands and options, and the texts that the whole command line is given.
function keep(    at, open) {
    for (at = 1; at <= tokens; at++) {
        if (token[at] == "const" && token[at + 2] == ":") {
            for (open = at; token[open] != "="; open++) if (open > tokens) fail("a constant without a value")
            if (token[at + 3] == "OptionText" || token[at + 3] == "SubcommandText") keep_fields(token[at + 1], open + 2)
            if (token[at + 1] == "SUBCOMMANDS") keep_fields("SUBCOMMANDS", open + 1)
        }
        if (token[at] ~ /^(about|version|after_help)$/ && token[at + 1] == "(" && is_text(at + 2)) {
            program[token[at]] = text_at(at + 2)
        }
    }
}

function the_text(name, field) {
    if (texts[name, field] != 1) fail(name ": no " field)
    return text[name, field, 1]
}

# The column `FORM`, and how many texts go with it.
function form_of(name,    form) {
    form = word[name, "form", words[name, "form"]]
    if (form ~ /^(Word|FreeWords?|Flag)$/ && texts[name, "form"] == 0) return form
    if (form ~ /^(Value|Needed|Several)$/ && texts[name, "form"] == 1) return form
    if (form == "Default" && texts[name, "form"] == 2) return form
    if (form == "Each" && texts[name, "form"] > 1) return form
    fail(name ": an unknown form of an option")
}

# The column `VALUE`.
function value_of(name,    i, value) {
    value = text[name, "form", 1]
    if (form_of(name) == "Each") for (i = 2; i <= texts[name, "form"]; i++) value = value " " text[name, "form", i]
    return value
}

# The column `DEFAULT`.
function default_of(name) { return form_of(name) == "Default" ? text[name, "form", 2] : "" }

# The words of which a value is one, by its name.
function few_words(value) {
    if (value == "WHEN") return "auto always never"
    if (value == "METHOD") return "seen uniform bursts pct mix"
    return ""
}

function print_command(constant,    command, i, name) {
    command = the_text(constant, "name")
    print "command", command, the_text(constant, "about"), the_text(constant, "example")
    for (i = 1; i <= words[constant, "options"]; i++) {
        name = word[constant, "options", i]
        print "option", command, the_text(name, "name"), form_of(name), value_of(name), default_of(name), \
            the_text(name, "help"), few_words(text[name, "form", 1])
    }
}

END {
    if (failed) exit 1
    OFS = "\t"
    keep()
    if (words["SUBCOMMANDS", ""] == 0) fail("no list SUBCOMMANDS")
    print "program", program["about"], program["version"], program["after_help"]
    for (i = 1; i <= words["SUBCOMMANDS", ""]; i++) print_command(word["SUBCOMMANDS", "", i])
}
