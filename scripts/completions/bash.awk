# Completions for bash, from the lines of data.awk.

BEGIN { FS = "\t" }

$1 == "command" {
    commands = commands $2 " "
    options[$2] = "--help"
    name[++count] = $2
}

$1 == "option" && $4 ~ /Words?$/ { if ($3 == "FILE") files = files $2 " | " }

$1 == "option" && $4 !~ /Words?$/ {
    options[$2] = options[$2] " --" $3
    if ($8 != "") {
        if (!($8 in chosen)) sets[++set_count] = $8
        chosen[$8] = chosen[$8] "'" $2 " --" $3 "' | "
    } else if ($5 == "PATH") paths = paths "'" $2 " --" $3 "' | "
    else if ($4 != "Flag") values = values "'" $2 " --" $3 "' | "
}

# A line of a case: its patterns, a line each where they are quoted, and what is done.
function arm(patterns, body) {
    sub(/ \| $/, "", patterns)
    gsub(/' \| '/, "' | \\\n    '", patterns)
    return "    " patterns ") " body " ;;"
}

function print_options(    i) {
    print "# The options of a subcommand.\n_elide_options() {\n    case $1 in"
    for (i = 1; i <= count; i++) print arm(name[i], "echo '" options[name[i]] "'")
    print "    esac\n}\n"
}

function print_values(    i) {
    print "# What stands behind an option of a subcommand: a path, one of these words, or another value.\n_elide_value() {\n    case \"$1 $2\" in"
    print arm(paths, "echo path")
    for (i = 1; i <= set_count; i++) print arm(chosen[sets[i]], "echo '" sets[i] "'")
    print arm(values, "echo other")
    print "    esac\n}\n"
}

function print_files() {
    print "_elide_takes_file() {\n    case $1 in"
    print arm(files, "return 0")
    print "    *) return 1 ;;\n    esac\n}\n"
}

END {
    print "# Completions of elide for bash, to be sourced. Made by scripts/refresh-completions from the texts of `elide --help`.\n"
    print_options()
    print_values()
    print_files()
    print "_elide_commands='" commands "help'\n"
    while ((getline line < "scripts/completions/words.bash") > 0) print line
}
