#!/usr/bin/env bash
# Shows what an office has where the end of a command fails. First the closing fails: under a limit on the length of
# files (`ulimit -f`) the log takes a commit, and the file, which is longer, can't take it from the log. `ask`, `replay`
# and `serve` must give their answers, say that the closing failed and end with 3; what they answered must be there
# afterwards. So it is where the output fails too. Then the output alone fails (`/dev/full`): the command ends with 3,
# and the file has the change without its log. Then an install fails, and the policy from before stays. At last somebody
# removes the log of an office that serves.
# Argument: the program; if left out, that of DEPOT, or the repository's own.
set -eu
top=$(readlink -f "$(dirname "$(readlink -f "$0")")/..")
. "$top/trials/needs.sh"
. "$top/trials/cases.sh"
. "$top/trials/processes.sh"
. "$top/trials/offices.sh"
needs curl
needs_program "$@"
make_room
store=$room/office.db
day=2024-03-01
target='/deposits?collection=maps&class=y0&closed=2024-02-29&accession='
small=$room/small

# Runs the program where no file may be longer than a number of KiB: `limited KIB WORD..`.
limited() {
    (
        trap '' XFSZ
        ulimit -f "$1"
        shift
        exec "$program" "$@"
    )
}

# What a command did: the status line of its answer on standard output, or nothing, the first line on standard error,
# and its status, `status`.
did() {
    echo "$(tr -d '\r' <"$room/out" | grep -a '^HTTP' || true); $(head -n 1 "$room/err"); $status"
}

# The deposit of this number is in the store: `is_kept NUMBER [STORE]`.
is_kept() {
    compare "deposit $1" 'HTTP/1.1 200' \
        "$(request GET "/deposits/$1" | "$program" ask "${2:-$store}" "$day" | head -n 1 | cut -c -12)"
}

# A form of a bag with one file of this length, which no other bag has. A store gets its bytes at the end of the file,
# past the limit once a large one is there.
make_form() {
    head -c "$2" /dev/urandom | make_bag "$room/$1"
    "$program" pack "$room/$1" "$room/$1.bagset" >/dev/null
}

make_form large 2000000
for number in {2..6}; do make_form "small-$number" 20000; done
"$program" policy "$store" "$top/examples/policy.toml" >/dev/null
printf '{"years":0}' >"$room/years"
{
    request PUT /classes/y0 "$room/years" | record
    request PUT /collections/maps | record
    request POST "${target}A-1" "$room/large.bagset" | record
} >"$room/input"
"$program" replay "$store" <"$room/input" | grep -aq '^HTTP/1.1 201 ' || fail "no deposit was made"

status=0
request POST "${target}A-2" "$small-2.bagset" | limited 512 ask "$store" "$day" >"$room/out" 2>"$room/err" || status=$?
compare "ask, whose closing fails" 'HTTP/1.1 201 Created; store Q4; 3' "$(did)"
is_kept 2

status=0
request POST "${target}A-3" "$small-3.bagset" | record >"$room/third"
limited 512 replay "$store" <"$room/third" >"$room/out" 2>"$room/err" || status=$?
compare "replay, whose closing fails" 'HTTP/1.1 201 Created; store Q4; 3' "$(did)"
is_kept 3

status=0
limited 512 serve --port 0 --count 1 "$store" "$day" >"$room/listening" 2>"$room/err" &
serving=$!
await_port "$serving" "$room/listening"
anna -i --data-binary "@$small-4.bagset" "$address${target}A-4" >"$room/out"
ended "$serving" || status=$?
# (that its connections were served comes first)
compare "what serve says first" 'depot: serving ended after the connections that were asked for: 1' \
    "$(head -n 1 "$room/err")"
sed -i 1d "$room/err"
compare "serve, whose closing fails" 'HTTP/1.1 201 Created; store Q4; 3' "$(did)"
is_kept 4

# The output fails, and the closing too: the program names the closing.
status=0
: >"$room/out"
request POST "${target}A-5" "$small-5.bagset" | limited 512 ask "$store" "$day" >/dev/full 2>"$room/err" || status=$?
compare "ask, whose output and closing fail" '; store Q4; 3' "$(did)"
is_kept 5

# The output alone fails: the file is closed, and needs no log.
status=0
request POST "${target}A-6" "$small-6.bagset" | "$program" ask "$store" "$day" >/dev/full 2>"$room/err" || status=$?
compare "ask, whose output fails" '; device; 3' "$(did)"
cp "$store" "$room/alone.db"
is_kept 6 "$room/alone.db"
# The log takes no page, so the install fails: the program says so, and the policy from before stays.
installed=$room/installed.db
"$program" policy "$installed" "$top/examples/policy.toml" >/dev/null
cp "$installed" "$room/before.db"
status=0
limited 4 policy "$installed" "$top/examples/policy.toml" >"$room/out" 2>"$room/err" </dev/null || status=$?
compare "an install that fails" '; store Q4; 3' "$(did)"
compare "what it says then" "depot: cannot install the policy in $installed: the store failed" \
    "$(tail -n +2 "$room/err")"
cmp "$installed" "$room/before.db"
compare "the policy from before" 'HTTP/1.1 200' \
    "$(request GET /deposits | "$program" ask "$installed" "$day" | head -n 1 | cut -c -12)"

# Somebody removes the log of an office that runs: it goes on answering, and what it answered is gone with the process,
# as docs/OPERATING.md says under "The two files". (SQLite does the same, so an office isn't asked to notice it.)
answered() {
    anna -w ' %{http_code}' -X PUT "$address/collections/$1"
}
serve_office "$installed" "$day"
compare "an office with its log" '{"collection":"before"} 200' "$(answered before)"
rm "$installed-wal"
compare "an office without its log" '{"collection":"after"} 200' "$(answered after)"
stop_office
printf '{"collection":"after","matter":"Case 7"}' >"$room/hold"
matches "what was answered without a log" '*NoSuch*' \
    "$(request POST /holds "$room/hold" | "$program" ask "$installed" "$day")"
echo "closing: $cases cases: commands whose end fails say so, and what they answered is there; a log that is removed" \
    "is lost"
