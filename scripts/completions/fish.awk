# Completions for fish, from the lines of data.awk.

BEGIN {
    FS = "\t"
    quote = sprintf("%c", 39)
    print "# Completions of elide for fish. Made by scripts/refresh-completions from the texts of `elide --help`."
    print "\ncomplete -c elide -n __fish_use_subcommand -l help -d 'Print help'"
    print "complete -c elide -n __fish_use_subcommand -l version -d 'Print version'"
}

function quoted(text) {
    gsub(/[\\']/, "\\\\&", text)
    return quote text quote
}

function within(command) { return "complete -c elide -n '__fish_seen_subcommand_from " command "'" }

$1 == "command" {
    commands = commands " " $2
    print "\ncomplete -c elide -n __fish_use_subcommand -f -a " $2 " -d " quoted($3)
    print within($2) " -l help -d 'Print help'"
}

# A word that is no file's path.
$1 == "option" && $4 ~ /Words?$/ && $3 != "FILE" { print within($2) " -f" }

$1 == "option" && $4 !~ /Words?$/ {
    print within($2) " -l " $3 ($4 == "Flag" ? "" : $5 == "PATH" ? " -r -F" : " -x") ($8 == "" ? "" : " -a " quoted($8)) " -d " quoted($7)
}

END {
    print "\ncomplete -c elide -n __fish_use_subcommand -f -a help -d 'Print this message or the help of the given subcommand'"
    print within("help") " -f -a '" substr(commands, 2) "'"
}
