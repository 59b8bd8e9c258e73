# What the comparisons share. Each is run as `bench/NAME` from anywhere, installs nothing and changes nothing of the repository.

here=$(CDPATH='' cd -- "$(dirname -- "$(readlink -f -- "$0")")" && pwd -P)
elide=$here/../elide
work=$(mktemp -d)
trap 'rm -rf "$work"' EXIT

# Ends with a word on the Debian package that has a program, where it is not there.
need() {
    command -v "$1" >/dev/null || { echo "bench: $1 is not there; the Debian package $2 has it" >&2; exit 1; }
}

# The program that ./elide starts, for what counts its instructions; which it is goes to standard error.
program_itself() {
    local program
    "$elide" --version >&2
    # shellcheck disable=SC1091
    . "$here/../out/choice"
    echo "$here/../out/$program"
}

# The seconds that a command takes, three decimals.
seconds() {
    local from to
    from=$(date +%s%N)
    "$@" >/dev/null 2>"$work/err" || { cat "$work/err" >&2; return 1; }
    to=$(date +%s%N)
    awk -v n=$((to - from)) 'BEGIN { printf "%.3f", n / 1e9 }'
}

# The middle one of three numbers.
median() { printf '%s\n' "$@" | sort -g | sed -n 2p; }
