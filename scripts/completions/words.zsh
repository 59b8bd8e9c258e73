_elide() {
    if (( CURRENT == 2 )); then
        _alternative 'commands:command:_elide_commands' 'options:option:(--help --version)'
        return
    fi
    # The subcommand stands for the program from here on.
    shift words
    (( CURRENT-- ))
    _elide_arguments "$words[1]"
}

if [ "$funcstack[1]" = _elide ]; then _elide "$@"; else compdef _elide elide; fi
