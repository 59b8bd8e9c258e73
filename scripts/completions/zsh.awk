# Completions for zsh, from the lines of data.awk.

BEGIN {
    FS = "\t"
    quote = sprintf("%c", 39)
}

# A text between single quotes, in which the marks of a description are escaped.
function described(text) {
    gsub(/\\/, "\\\\&", text)
    gsub(/\[/, "\\[", text)
    gsub(/\]/, "\\]", text)
    gsub(/:/, "\\:", text)
    gsub(quote, quote "\\" quote quote, text)
    return text
}

function coloned(text) {
    gsub(/:/, "\\:", text)
    return text
}

function quoted(text) { return quote text quote }

# What completes a value or a word of this name.
function action(value) {
    if ($8 != "") return "(" $8 ")"
    return value == "FILE" || value == "PATH" ? "_files" : " "
}

# What completes the values of an option, of which there can be several.
function values(names,    i, n, each, text) {
    n = $4 == "Each" ? split(names, each, " ") : 1
    if (n == 1) each[1] = names
    for (i = 1; i <= n; i++) text = text ":" coloned(each[i]) ":" action(each[i])
    return text
}

function spec(    value) {
    if ($4 == "Word") return "1:" $3 ":" action($3)
    if ($4 == "FreeWord") return "1::" $3 ":" action($3)
    if ($4 == "FreeWords") return "*:" $3 ":" action($3)
    value = $4 == "Flag" ? "" : values($5)
    return ($4 == "Several" ? "*" : "") "--" $3 "[" described($7) "]" value
}

$1 == "command" {
    name[++count] = $2
    about[$2] = $3
    specs[$2] = "        " quoted("(- *)" "--help[Print help]")
}

$1 == "option" { specs[$2] = specs[$2] " \\\n        " quoted(spec()) }

END {
    print "#compdef elide"
    print "# Completions of elide for zsh. Made by scripts/refresh-completions from the texts of `elide --help`.\n"
    print "_elide_commands() {\n    local -a commands=("
    for (i = 1; i <= count; i++) print "        " quoted(name[i] ":" described(about[name[i]]))
    print "        'help:Print this message or the help of the given subcommand'\n    )"
    print "    _describe -t commands command commands\n}\n"
    print "_elide_arguments() {\n    case $1 in"
    for (i = 1; i <= count; i++) print "    " name[i] ") _arguments \\\n" specs[name[i]] " ;;"
    print "    help) _elide_commands ;;\n    esac\n}\n"
    while ((getline line < "scripts/completions/words.zsh") > 0) print line
}
