# Completions for bash, made of what `depot --help` says, by trials/manual.py: change it there, and not here.
# shellcheck shell=bash
_depot() {
    local word=${COMP_WORDS[COMP_CWORD]} options=
    COMPREPLY=()
    if [ "$COMP_CWORD" -eq 1 ]; then
        mapfile -t COMPREPLY < <(compgen -W 'check pack unpack explain policy ask replay serve' -- "$word")
        return
    fi
    case ${COMP_WORDS[1]} in
    check) options='--help' ;;
    pack) options='--help' ;;
    unpack) options='--help' ;;
    explain) options='--day --help' ;;
    policy) options='--help' ;;
    ask) options='--help' ;;
    replay) options='--policy --help' ;;
    serve) options='--port --count --help' ;;
    *) ;;
    esac
    if [[ $word == -* ]]; then
        mapfile -t COMPREPLY < <(compgen -W "$options" -- "$word")
    fi
}
complete -o default -F _depot depot
