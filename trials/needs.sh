# Sourced by the scripts of this folder: what a script needs before it can begin. Where something is missing, the script
# says what it is and ends with status 3, by which trials/run knows it.
# shellcheck shell=bash

# The script can't run here: `lacks WHAT`.
lacks() {
    echo "${0##*/} needs $1" >&2
    exit 3
}

# Each of these tools is there: `needs TOOL[=PACKAGE]..`, where Debian's package has the tool's name if none is given.
# What is missing is installed, where this is Debian and its root, unless INSTALL is `no`. A name with a `/` is that of
# a file, and `python3:NAME` a module of Debian's Python.
needs() {
    local each name packages=()
    for each in "$@"; do
        name=${each%%=*}
        case $name in
        */*) [ -e "$name" ] ;;
        python3:*) /usr/bin/python3 -c "import ${name#python3:}" 2>/dev/null ;;
        *) PATH=$PATH:/usr/sbin:/sbin command -v "$name" >/dev/null ;;
        esac || packages+=("${each#*=}")
    done
    [ "${#packages[@]}" -gt 0 ] || return 0
    if [ "$(id -u)" -ne 0 ] || [ "${INSTALL-}" = no ] || ! command -v apt-get >/dev/null; then
        lacks "these packages of Debian: ${packages[*]}"
    fi
    echo "${0##*/}: installing ${packages[*]}" >&2
    # (One script at a time. A service that comes with a package doesn't start by itself.)
    local said
    said=$(mktemp)
    if ! (
        flock 9
        apt-get -qq update &&
            RUNLEVEL=1 DEBIAN_FRONTEND=noninteractive apt-get -qq -y --no-install-recommends install "${packages[@]}"
    ) </dev/null >"$said" 2>&1 9>/run/lock/depot-needs; then
        tail -n 5 "$said" >&2
        rm -f "$said"
        lacks "these packages of Debian, which can't be installed: ${packages[*]}"
    fi
    rm -f "$said"
}

# The kit, which no package has.
needs_kit() {
    command -v rt >/dev/null || lacks "the kit, whose command rt isn't on the PATH"
}

# Root: `needs_root WHAT_FOR`.
needs_root() {
    [ "$(id -u)" -eq 0 ] || lacks "root, for $1"
}

# Runs a command in namespaces of its own, where it is root: `apart OPTION.. COMMAND..`, with the options of `unshare`.
apart() {
    if [ "$(id -u)" -eq 0 ]; then
        unshare "$@"
    else
        unshare --map-root-user "$@"
    fi
}

# Mounts of the script's own.
needs_mounts() {
    needs unshare=util-linux
    apart --mount true 2>/dev/null || lacks "root or a user namespace, for mounts of its own"
}

# Sets `program` to the program that is tried: the first word of `needs_program "$@"`, else that of the variable DEPOT,
# else the repository's own, which `./depot` proves and builds where it is missing or its sources have changed. The
# script sets `top`.
# shellcheck disable=SC2154
needs_program() {
    local given=${1:-${DEPOT-}}
    if [ -z "$given" ]; then
        "$top/depot" check "$top/examples/bag-a.bagset" >/dev/null || exit
        given=$top/crates/depot/out/depot-program
    fi
    use_program "$given"
    # (what a script calls gets the DEPOT that the script gives it)
    unset DEPOT
}

# Sets `program` to the trial program `trial_office`: that of TRIAL_OFFICE, else the repository's own, which
# `rt run` proves and builds where it is missing or its sources have changed.
needs_trial_office() {
    local crate=$top/crates/trial_office
    if [ -z "${TRIAL_OFFICE-}" ]; then
        needs_kit
        (cd "$crate" && rt run -- draw 1 1) >/dev/null 2>&1 ||
            lacks "the program trial_office, which can't be built: try rt run in $crate"
    fi
    use_program "${TRIAL_OFFICE:-$crate/out/trial_office}"
}

# Sets `program` to this one, by its whole path.
use_program() {
    program=$(readlink -f -- "$1") || program=
    if [ ! -f "$program" ] || [ ! -x "$program" ]; then
        echo "${0##*/}: $1 isn't a program" >&2
        exit 2
    fi
}
