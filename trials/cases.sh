# Sourced by the scripts of this folder: what came is compared with what is wanted, and the cases are counted. The first
# that differs ends the script with status 1.
# shellcheck shell=bash

# How many cases there were.
cases=0

# Ends the script, and says why. A script that can show more defines `when_failed`.
fail() {
    echo "$1" >&2
    if declare -F when_failed >/dev/null; then
        when_failed >&2 || true
    fi
    exit 1
}

# A case: `compare WHAT WANTED CAME`.
compare() {
    [ "$2" = "$3" ] || differs "$@"
    cases=$((cases + 1))
}

# A case whose WANTED is a pattern, as `case` has them: `matches WHAT WANTED CAME`.
matches() {
    # shellcheck disable=SC2254 # it is a pattern
    case $3 in
    $2) cases=$((cases + 1)) ;;
    *) differs "$@" ;;
    esac
}

differs() {
    fail "$1: '$2' is wanted, and this came: '$3'"
}
