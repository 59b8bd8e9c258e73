# What a word behind the subcommand can be, or `files` where it is one's path.
_elide_choices() {
    case $(_elide_value "$1" "$2") in
    path) echo files ;;
    other) ;;
    '')
        case $3 in
        -*) _elide_options "$1" ;;
        *) if _elide_takes_file "$1"; then echo files; elif [ "$1" = help ]; then echo "$_elide_commands"; fi ;;
        esac
        ;;
    *) _elide_value "$1" "$2" ;;
    esac
}

_elide() {
    local word=${COMP_WORDS[COMP_CWORD]} before=${COMP_WORDS[COMP_CWORD - 1]} choices
    # bash splits `--record=file` at the sign.
    if [ "$before" = = ]; then before=${COMP_WORDS[COMP_CWORD - 2]}; fi
    if [ "$word" = = ]; then word=; fi
    if [ "$COMP_CWORD" -eq 1 ]; then
        choices="$_elide_commands --help --version"
    else
        choices=$(_elide_choices "${COMP_WORDS[1]}" "$before" "$word")
    fi
    COMPREPLY=()
    # Without an answer bash offers files.
    if [ "$choices" = files ]; then return; fi
    compopt +o default 2>/dev/null
    # shellcheck disable=SC2207
    COMPREPLY=($(compgen -W "$choices" -- "$word"))
}

complete -o default -F _elide elide
