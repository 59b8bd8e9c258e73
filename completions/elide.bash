# Completions of elide for bash, to be sourced. Made by scripts/refresh-completions from the texts of `elide --help`.

# The options of a subcommand.
_elide_options() {
    case $1 in
    asm) echo '--help --list --words --color' ;;
    dis) echo '--help --labels --words --color' ;;
    run) echo '--help --cores --mem --entry --reads --writes --store-buffer --dump --show --steps --schedule --trace --code --why --expect-halt --in-turn --random --events --seed --limit --record --json --words --color' ;;
    threads) echo '--help --cores --mem --entry --reads --writes --store-buffer --dump --show --budget --burst --events --seed --why --stats --json --record --words --color' ;;
    replay) echo '--help --cores --mem --entry --reads --writes --store-buffer --dump --show --steps --schedule --why --in-turn --random --events --seed --limit --record --json --words --color' ;;
    debug) echo '--help --cores --mem --entry --reads --writes --store-buffer --dump --steps --schedule --in-turn --random --events --seed --limit --words --color' ;;
    gdb) echo '--help --cores --mem --entry --reads --writes --store-buffer --steps --schedule --in-turn --random --events --seed --limit --words --color' ;;
    hunt) echo '--help --cores --mem --entry --reads --writes --store-buffer --check --forbid --stop --expect-halt --runs --seed --method --events --limit --jobs --record --page --json --words --color' ;;
    outcomes) echo '--help --cores --mem --entry --reads --writes --store-buffer --show --names --events --limit --check --forbid --stop --stuck --page --json --words --color' ;;
    test) echo '--help --list --jobs --json --words --color' ;;
    stats) echo '--help --cores --mem --entry --reads --writes --store-buffer --steps --schedule --in-turn --random --events --seed --limit --record --json --words --color' ;;
    draw) echo '--help --cores --mem --entry --reads --writes --store-buffer --show --steps --schedule --in-turn --random --events --seed --limit --record --from --to --core --words --color' ;;
    page) echo '--help --cores --mem --entry --reads --writes --store-buffer --show --steps --schedule --in-turn --random --events --seed --limit --from --to --note --title --output --words --color' ;;
    explain) echo '--help --words --color' ;;
    esac
}

# What stands behind an option of a subcommand: a path, one of these words, or another value.
_elide_value() {
    case "$1 $2" in
    'run --schedule' | \
    'run --record' | \
    'threads --record' | \
    'replay --schedule' | \
    'replay --record' | \
    'debug --schedule' | \
    'gdb --schedule' | \
    'hunt --record' | \
    'hunt --page' | \
    'test --list' | \
    'stats --schedule' | \
    'stats --record' | \
    'draw --schedule' | \
    'draw --record' | \
    'page --schedule' | \
    'page --output') echo path ;;
    'asm --words' | \
    'asm --color' | \
    'dis --words' | \
    'dis --color' | \
    'run --words' | \
    'run --color' | \
    'threads --words' | \
    'threads --color' | \
    'replay --words' | \
    'replay --color' | \
    'debug --words' | \
    'debug --color' | \
    'gdb --words' | \
    'gdb --color' | \
    'hunt --words' | \
    'hunt --color' | \
    'outcomes --words' | \
    'outcomes --color' | \
    'test --words' | \
    'test --color' | \
    'stats --words' | \
    'stats --color' | \
    'draw --words' | \
    'draw --color' | \
    'page --words' | \
    'page --color' | \
    'explain --words' | \
    'explain --color') echo 'auto always never' ;;
    'hunt --method') echo 'seen uniform bursts pct mix' ;;
    'run --cores' | \
    'run --mem' | \
    'run --entry' | \
    'run --reads' | \
    'run --writes' | \
    'run --store-buffer' | \
    'run --dump' | \
    'run --show' | \
    'run --steps' | \
    'run --random' | \
    'run --events' | \
    'run --seed' | \
    'run --limit' | \
    'threads --cores' | \
    'threads --mem' | \
    'threads --entry' | \
    'threads --reads' | \
    'threads --writes' | \
    'threads --store-buffer' | \
    'threads --dump' | \
    'threads --show' | \
    'threads --budget' | \
    'threads --burst' | \
    'threads --events' | \
    'threads --seed' | \
    'replay --cores' | \
    'replay --mem' | \
    'replay --entry' | \
    'replay --reads' | \
    'replay --writes' | \
    'replay --store-buffer' | \
    'replay --dump' | \
    'replay --show' | \
    'replay --steps' | \
    'replay --random' | \
    'replay --events' | \
    'replay --seed' | \
    'replay --limit' | \
    'debug --cores' | \
    'debug --mem' | \
    'debug --entry' | \
    'debug --reads' | \
    'debug --writes' | \
    'debug --store-buffer' | \
    'debug --dump' | \
    'debug --steps' | \
    'debug --random' | \
    'debug --events' | \
    'debug --seed' | \
    'debug --limit' | \
    'gdb --cores' | \
    'gdb --mem' | \
    'gdb --entry' | \
    'gdb --reads' | \
    'gdb --writes' | \
    'gdb --store-buffer' | \
    'gdb --steps' | \
    'gdb --random' | \
    'gdb --events' | \
    'gdb --seed' | \
    'gdb --limit' | \
    'hunt --cores' | \
    'hunt --mem' | \
    'hunt --entry' | \
    'hunt --reads' | \
    'hunt --writes' | \
    'hunt --store-buffer' | \
    'hunt --check' | \
    'hunt --forbid' | \
    'hunt --stop' | \
    'hunt --runs' | \
    'hunt --seed' | \
    'hunt --events' | \
    'hunt --limit' | \
    'hunt --jobs' | \
    'outcomes --cores' | \
    'outcomes --mem' | \
    'outcomes --entry' | \
    'outcomes --reads' | \
    'outcomes --writes' | \
    'outcomes --store-buffer' | \
    'outcomes --show' | \
    'outcomes --events' | \
    'outcomes --limit' | \
    'outcomes --check' | \
    'outcomes --forbid' | \
    'outcomes --stop' | \
    'outcomes --page' | \
    'test --jobs' | \
    'stats --cores' | \
    'stats --mem' | \
    'stats --entry' | \
    'stats --reads' | \
    'stats --writes' | \
    'stats --store-buffer' | \
    'stats --steps' | \
    'stats --random' | \
    'stats --events' | \
    'stats --seed' | \
    'stats --limit' | \
    'draw --cores' | \
    'draw --mem' | \
    'draw --entry' | \
    'draw --reads' | \
    'draw --writes' | \
    'draw --store-buffer' | \
    'draw --show' | \
    'draw --steps' | \
    'draw --random' | \
    'draw --events' | \
    'draw --seed' | \
    'draw --limit' | \
    'draw --from' | \
    'draw --to' | \
    'draw --core' | \
    'page --cores' | \
    'page --mem' | \
    'page --entry' | \
    'page --reads' | \
    'page --writes' | \
    'page --store-buffer' | \
    'page --show' | \
    'page --steps' | \
    'page --random' | \
    'page --events' | \
    'page --seed' | \
    'page --limit' | \
    'page --from' | \
    'page --to' | \
    'page --note' | \
    'page --title') echo other ;;
    esac
}

_elide_takes_file() {
    case $1 in
    asm | dis | run | threads | replay | debug | gdb | hunt | outcomes | test | stats | draw | page) return 0 ;;
    *) return 1 ;;
    esac
}

_elide_commands='asm dis run threads replay debug gdb hunt outcomes test stats draw page explain help'

# What a word behind the subcommand can be, or `files` where it is one's path.
_elide_choices() {
    case $(_elide_value "$1" "$2") in
    path) echo files ;;
    other) ;;
    '')
        case $3 in
        -*) _elide_options "$1" ;;
        *) if _elide_takes_file "$1"; then echo files; elif [ "$1" = help ]; then echo "$_elide_commands"; fi ;;
        esac
        ;;
    *) _elide_value "$1" "$2" ;;
    esac
}

_elide() {
    local word=${COMP_WORDS[COMP_CWORD]} before=${COMP_WORDS[COMP_CWORD - 1]} choices
    # bash splits `--record=file` at the sign.
    if [ "$before" = = ]; then before=${COMP_WORDS[COMP_CWORD - 2]}; fi
    if [ "$word" = = ]; then word=; fi
    if [ "$COMP_CWORD" -eq 1 ]; then
        choices="$_elide_commands --help --version"
    else
        choices=$(_elide_choices "${COMP_WORDS[1]}" "$before" "$word")
    fi
    COMPREPLY=()
    # Without an answer bash offers files.
    if [ "$choices" = files ]; then return; fi
    compopt +o default 2>/dev/null
    # shellcheck disable=SC2207
    COMPREPLY=($(compgen -W "$choices" -- "$word"))
}

complete -o default -F _elide elide
