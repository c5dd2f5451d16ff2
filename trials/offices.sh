# Sourced by the scripts of this folder: bags, requests, and offices that serve. The script that sources this one has
# `program` and `room` (needs.sh, processes.sh) and sets `top`. Those of its requests that need a day use `day`.
# shellcheck shell=bash disable=SC2154

# ---- bags

# Makes a bag of a folder, with one payload file, `data/a`, which has what comes: `make_bag FOLDER`.
make_bag() {
    mkdir -p "$1/data"
    cat >"$1/data/a"
    printf 'BagIt-Version: 1.0\nTag-File-Character-Encoding: UTF-8\n' >"$1/bagit.txt"
    (cd "$1" && sha256sum data/a >manifest-sha256.txt)
}

# ---- requests, byte for byte

# A request of anna, or of the variable `caller`: `request METHOD TARGET [FILE]`, where FILE is its body.
request() {
    local body=${3:-/dev/null}
    printf '%s %s HTTP/1.1\r\nDepot-Caller: %s\r\nContent-Length: %s\r\n\r\n' "$1" "$2" "${caller-anna}" \
        "$(wc -c <"$body")"
    cat "$body"
}

# The record of the request that comes, for `depot replay`.
record() {
    cat >"$room/recorded"
    printf 'REQ %s %s\n' "$day" "$(wc -c <"$room/recorded")"
    cat "$room/recorded"
    echo
}

# ---- an office that serves

# Has the program serve an office: `serve_office STORE DAY [COUNT [PORT]]`. Sets `office`, its process, `port`, and
# `address`.
serve_office() {
    rm -f "$room/listening"
    "$program" serve --port "${4:-0}" --count "${3:-1000000}" "$1" "$2" >"$room/listening" &
    office=$!
    await_port "$office" "$room/listening"
}

# Ends it.
stop_office() {
    end_process "$office"
}

# Ends it as a loss of power would: it gets no chance to do anything.
kill_office() {
    kill -KILL "$office"
    ended "$office" 2>/dev/null || true
}

# Asks as anna: the arguments are those of curl.
anna() {
    curl -sS --max-time 60 -H 'Depot-Caller: anna' "$@"
}

# Where a deposit of this accession goes, in the collection `maps` and the class `y1`.
place() {
    echo "$address/deposits?collection=maps&class=y1&accession=$1&closed=2024-02-29"
}

# Anna deposits the bag of the examples, or a form, and that is the deposit of this number: `deposit NUMBER [FORM]`.
deposit() {
    compare "deposit $1" "{\"deposit\":$1}" \
        "$(anna --data-binary "@${2:-$top/examples/bag-a.bagset}" "$(place "A-$1")")"
}

# The list of deposits that comes, each as its number alone.
numbers() {
    sed 's/{"accession[^}]*"deposit":\([0-9]*\),[^}]*}/\1/g'
}

# How many deposits the list that comes has.
count_listed() {
    grep -o '"deposit":[0-9]*' | wc -l
}
