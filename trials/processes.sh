# Sourced by the scripts of this folder: the folder in which a script works, the processes that it begins, and how it
# waits for them. A wait ends after a minute.
# shellcheck shell=bash

# Makes a folder, `room`, for the script alone. When the script ends, so do the processes that it began, and the folder
# goes. A script that has more to take back, such as a mount, defines `undo`.
make_room() {
    room=$(mktemp -d)
    trap clean_up EXIT
}

clean_up() {
    # (a machine of boots.sh is halted before its process is ended)
    if declare -F halt_machine >/dev/null; then halt_machine || true; fi
    end_jobs
    cd /
    if declare -F undo >/dev/null; then undo || true; fi
    rm -rf --one-file-system "$room"
}

# Ends the processes that the script began; those that stand still go on first. One that goes on for ten seconds is
# killed.
end_jobs() {
    local each end=$((SECONDS + 10))
    {
        # (a job that is ended while it begins would clean up too)
        [ -z "$(jobs -p)" ] || sleep 0.1
        for each in $(jobs -p); do
            kill "$each"
            kill -CONT "$each"
        done
        while [ -n "$(jobs -pr)" ] && [ "$SECONDS" -lt "$end" ]; do sleep 0.05; done
        for each in $(jobs -pr); do kill -KILL "$each"; done
        wait
    } 2>/dev/null || true
}

# Waits until the file that a process writes has this word: `await PROCESS FILE WORD`. Fails where the process ends
# first.
await() {
    local end=$((SECONDS + 60)) is_over=
    until grep -qs -- "$3" "$2"; do
        if [ -n "$is_over" ]; then
            echo "a process that says '$3' is wanted, and it ended" >&2
            return 1
        elif [ "$SECONDS" -ge "$end" ]; then
            echo "a process that says '$3' is wanted, and it said nothing of it for a minute" >&2
            return 1
        elif kill -0 "$1" 2>/dev/null; then
            sleep 0.05
        else
            # It is over: what it said last may have come meanwhile.
            is_over=yes
        fi
    done
}

# Waits until a process says `listening PORT` in a file: `await_port PROCESS FILE`. Sets `port`, and `address`, that of
# the desk.
await_port() {
    await "$1" "$2" listening || return
    port=$(sed -n 's/^listening //p' "$2")
    # shellcheck disable=SC2034 # the script that sources this one uses it
    address=http://127.0.0.1:$port
}

# Waits for the end of a process, and gives its status. One that goes on is killed.
ended() {
    local end=$((SECONDS + 60))
    while kill -0 "$1" 2>/dev/null; do
        if [ "$SECONDS" -ge "$end" ]; then
            echo "the end of a process is wanted, and it went on for a minute" >&2
            kill -KILL "$1"
            break
        fi
        sleep 0.05
    done
    wait "$1"
}

# Ends a process that the script began.
end_process() {
    kill "$1"
    ended "$1" 2>/dev/null || true
}

# A port that is free.
free_port() {
    python3 -c 'import socket; s = socket.socket(); s.bind(("127.0.0.1", 0)); print(s.getsockname()[1])'
}
