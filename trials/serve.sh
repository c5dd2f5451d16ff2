#!/usr/bin/env bash
# Sends `depot serve` requests by curl, for each route and each refusal but lack of memory. Installs a policy of version
# 2, whose rules have days, and serves one office on three days, on which other rules decide the same requests; `explain
# --day` says the same of each. Each command that takes a policy or a day refuses a malformed one. Each command refuses
# a database that has commits in a log and isn't an office of this version, and an office that another process has open,
# and leaves it as it was. With too few descriptors to accept a connection `serve` stops, and says why. Then
# `serve_client.py` sends bytes that are cut, dribbled, stopped or too many, and kills the office 200 times, between
# requests and in them; what is there after each restart must be what was answered.
# Argument: the program; if left out, that of DEPOT, or the repository's own.
# A second argument: how many times the office is killed.
set -eu
top=$(readlink -f "$(dirname "$(readlink -f "$0")")/..")
. "$top/trials/needs.sh"
. "$top/trials/cases.sh"
. "$top/trials/processes.sh"
. "$top/trials/offices.sh"
needs curl python3 sqlite3
needs_program "$@"
make_room
kills=${2:-200}
bag=$top/examples/bag-a.bagset
policy=$top/examples/policy.toml
dated=$room/dated.toml
day=2024-03-01
store=$room/office.db
commands=(policy ask replay 'replay --policy' serve)
refusals=0
questions=0
first='{"accession":"A-1","bytes":3,"class":"y0","closed":"2024-02-29","collection":"maps","deposit":1,'
first+='"deposited":"2024-03-01","due":"2024-02-29","files":1}'
second='{"accession":"A-2","bytes":3,"class":"y10","closed":"2024-02-29","collection":"tax","deposit":2,'
second+='"deposited":"2024-03-01","due":"2034-02-28","files":1}'
listed=${first/y0/drawn}
on_class='{"hold":1,"matter":"Case 7","on":"class","placed":"2024-03-01"}'
on_collection='{"hold":2,"matter":"Case 8","on":"collection","placed":"2024-03-01"}'
long=$(printf 'x%.0s' {1..9000})

# A request and its answer: `asks CALLER STATUS BODY TARGET ARGUMENT..`, where the arguments are those of curl, and the
# status of a wrong method is followed by what `Allow` says.
asks() {
    local caller=$1 status=$2 body=$3 target=$4 said
    shift 4
    said=$(curl -sS --max-time 60 -H "Depot-Caller: $caller" -w '\n%{http_code} %header{allow}' "$@" \
        "$address$target" 2>&1) || true
    compare "$target by $caller" "$body"$'\n'"$status" "${said% }"
}

# The requests of curl, in order.
all() {
    asks anna 200 '{"class":"y0","years":0}' /classes/y0 -X PUT -d '{"years":0}'
    asks anna 200 '{"class":"y10","years":10}' /classes/y10 -X PUT -d '{"years":10}'
    asks anna 200 '{"class":"kept","years":null}' /classes/kept -X PUT -d '{"years":null}'
    asks anna 200 '{"collection":"maps"}' /collections/maps -X PUT
    asks anna 200 '{"collection":"tax"}' /collections/tax -X PUT
    asks eve 403 '{"error":"Denied","rule":"default"}' /collections/tax -X PUT
    asks anna 201 '{"deposit":1}' '/deposits?collection=maps&class=y0&accession=A-1&closed=2024-02-29' --data-binary \
        "@$bag"
    asks anna 409 '{"deposit":1,"error":"Taken"}' '/deposits?collection=maps&class=y0&accession=A-1&closed=2024-02-29' \
        --data-binary "@$bag"
    asks anna 201 '{"deposit":2}' '/deposits?collection=tax&class=y10&accession=A-2&closed=2024-02-29' --data-binary \
        "@$bag"
    asks anna 201 '{"deposit":3}' '/deposits?collection=maps&class=y10&accession=A-3&closed=2024-02-29' --data-binary \
        "@$bag"
    asks anna 201 '{"deposit":4}' '/deposits?collection=maps&class=kept&accession=A-4&closed=2024-02-29' --data-binary \
        "@$bag"
    asks anna 409 '{"error":"ClosedAhead"}' '/deposits?collection=maps&class=y0&accession=A-5&closed=2024-03-02' \
        --data-binary "@$bag"
    asks anna 422 '{"error":"BadBag","fault":"S3"}' \
        '/deposits?collection=maps&class=y0&accession=A-5&closed=2024-02-29' -X POST
    asks anna 404 '{"error":"NoSuch","what":"collection"}' \
        '/deposits?collection=none&class=y0&accession=A-5&closed=2024-02-29' --data-binary "@$bag"
    asks anna 404 '{"error":"NoSuch","what":"class"}' \
        '/deposits?collection=maps&class=none&accession=A-5&closed=2024-02-29' --data-binary "@$bag"
    asks anna 200 "{\"deposits\":[$first]}" '/deposits?class=y0'
    asks anna 200 "{\"deposits\":[$second]}" '/deposits?collection=tax'
    asks carl 200 '{"deposits":[]}' '/deposits?class=y0'
    asks anna 200 "$first" /deposits/1
    asks anna 404 '{"error":"NoSuch","what":"deposit"}' /deposits/7
    asks anna 201 '{"hold":1}' /holds -d '{"collection":"maps","matter":"Case 7"}'
    asks anna 200 '{"holds":[{"hold":1,"matter":"Case 7","on":"collection","placed":"2024-03-01"}]}' /deposits/1/holds
    asks anna 409 '{"error":"Held","hold":1}' /deposits/1 -X DELETE
    asks anna 200 '{"day":"2024-03-01","deposits":[]}' /due
    asks anna 200 '{"hold":1,"released":"2024-03-01"}' /holds/1 -X DELETE
    asks anna 409 '{"day":"2024-03-01","error":"Released"}' /holds/1 -X DELETE
    asks anna 404 '{"error":"NoSuch","what":"hold"}' /holds/9 -X DELETE
    asks anna 201 '{"hold":2}' /holds -d '{"deposit":2,"matter":"Case 8"}'
    asks anna 201 '{"hold":3}' /holds -d '{"class":"kept","matter":"Case 9"}'
    asks anna 200 '{"holds":[{"hold":3,"matter":"Case 9","on":"class","placed":"2024-03-01"}]}' /deposits/4/holds
    asks anna 200 '{"holds":[{"hold":2,"matter":"Case 8","on":"deposit","placed":"2024-03-01"}]}' /deposits/2/holds
    asks anna 409 '{"error":"Held","hold":3}' /deposits/4 -X DELETE
    asks anna 409 '{"error":"Full"}' /holds -d '{"deposit":2,"matter":"Case 9"}'
    asks anna 409 '{"error":"Full"}' /holds -d '{"class":"kept","matter":"Case 9"}'
    asks anna 404 '{"error":"NoSuch","what":"class"}' /holds -d '{"class":"none","matter":"Case 9"}'
    asks eve 404 '{"error":"NoSuch","what":"class"}' /holds -d '{"class":"none","matter":"Case 9"}'
    asks eve 403 '{"error":"Denied","rule":"default"}' /holds -d '{"class":"kept","matter":"Case 9"}'
    asks eve 403 '{"error":"Denied","rule":"default"}' /holds/3 -X DELETE
    asks anna 200 '{"hold":3,"released":"2024-03-01"}' /holds/3 -X DELETE
    asks anna 200 '{"holds":[]}' /deposits/4/holds
    asks anna 200 '{"day":"2024-03-01","deposits":[1]}' /due
    asks anna 200 "$(cat "$bag")"$'\n' /deposits/1/bag
    asks anna 200 abc /deposits/1/files/data/a
    asks anna 404 '{"error":"NoFile"}' /deposits/1/files/data/b
    asks anna 200 '{"bytes":3,"deposit":1,"files":1,"manifests":1,"valid":true,"version":"1.0"}' /deposits/1/audit
    asks anna 403 '{"error":"Denied","rule":1}' /deposits/2 -X DELETE
    asks anna 409 '{"due":"2034-02-28","error":"NotDue"}' /deposits/3 -X DELETE
    asks anna 409 '{"due":"permanent","error":"NotDue"}' /deposits/4 -X DELETE
    asks anna 200 '{"day":"2024-03-01","destroyed":1}' /deposits/1 -X DELETE
    asks anna 410 '{"day":"2024-03-01","error":"Gone"}' /deposits/1
    asks anna 503 '{"error":"Store"}' '/deposits?collection=maps&class=odd&accession=A-5&closed=2024-02-29' \
        --data-binary "@$bag"
    asks anna 201 '{"deposit":5}' '/deposits?collection=maps&class=kept&accession=A-5&closed=2024-02-29' --data-binary \
        "@$bag"
    asks anna 409 '{"error":"Full"}' '/deposits?collection=maps&class=y0&accession=A-6&closed=2024-02-29' \
        --data-binary "@$bag"
    asks anna 404 '{"error":"NoRoute"}' /nowhere
    asks anna '405 GET' '{"error":"Method"}' /due -X PUT
    asks anna '405 GET, POST' '{"error":"Method"}' /deposits -X DELETE
    asks anna 400 '{"error":"BadQuery"}' '/due?a=b'
    asks anna 400 '{"error":"BadBody"}' /classes/y1 -X PUT -d '{}'
    asks anna 400 '{"error":"BadBody"}' /holds -d '{"class":"kept","collection":"maps","matter":"Case 9"}'
    asks anna 400 '{"error":"BadBody"}' /holds -d '{"class":"kept","deposit":2,"matter":"Case 9"}'
    asks anna 400 '{"error":"BadBody"}' /holds -d '{"class":"Kept","matter":"Case 9"}'
    asks anna 400 '{"error":"BadBody"}' /holds -d '{"class":"kept"}'
    asks anna 400 '{"error":"Chunked"}' /classes/y1 -X PUT -H 'Transfer-Encoding: chunked' -d '{}'
    asks anna 400 '{"error":"BadLength"}' /due -H 'Content-Length: x'
    asks anna 413 '{"error":"TooLarge"}' /due -H 'Content-Length: 16777217'
    asks anna 413 '{"error":"TooLarge"}' /due -H "X-Long: $long"
    asks anna 400 '{"error":"TwoCallers"}' /due -H 'depot-caller: carl'
}

# A policy of version 2. Rule 1 counts in the year 2024, rule 2 up to the first of the days below, rule 3 from the
# second on, rule 4 on the first alone, and rule 5 on each.
cat >"$dated" <<'POLICY'
version = 2

[callers]
anna = "archivist"
carl = "clerk"

[[rule]]
effect = "deny"
role = "archivist"
action = "dispose"
collection = "tax"
class = "*"
first = "2024-01-01"
last = "2024-12-31"

[[rule]]
effect = "allow"
role = "clerk"
action = "list"
collection = "*"
class = "*"
last = "2024-03-01"

[[rule]]
effect = "allow"
role = "clerk"
action = "record"
collection = "*"
class = "*"
first = "2024-12-31"

[[rule]]
effect = "deny"
role = "archivist"
action = "release"
collection = "*"
class = "drawn"
first = "2024-03-01"
last = "2024-03-01"

[[rule]]
effect = "allow"
role = "archivist"
action = "*"
collection = "*"
class = "*"
POLICY

# The requests of the first day, 2024-03-01: a clerk lists, and reads no record; the hold on a class can't be released,
# and covers a deposit that comes later.
on_the_first() {
    asks anna 200 '{"class":"drawn","years":0}' /classes/drawn -X PUT -d '{"years":0}'
    asks anna 200 '{"class":"y10","years":10}' /classes/y10 -X PUT -d '{"years":10}'
    asks anna 200 '{"collection":"maps"}' /collections/maps -X PUT
    asks anna 200 '{"collection":"tax"}' /collections/tax -X PUT
    asks anna 201 '{"deposit":1}' '/deposits?collection=maps&class=drawn&accession=A-1&closed=2024-02-29' \
        --data-binary "@$bag"
    asks anna 201 '{"deposit":2}' '/deposits?collection=tax&class=drawn&accession=A-2&closed=2024-02-29' --data-binary \
        "@$bag"
    asks carl 200 "{\"deposits\":[$listed]}" '/deposits?collection=maps'
    asks carl 403 '{"error":"Denied","rule":"default"}' /deposits/1
    asks anna 201 '{"hold":1}' /holds -d '{"class":"drawn","matter":"Case 7"}'
    asks anna 201 '{"hold":2}' /holds -d '{"collection":"maps","matter":"Case 8"}'
    asks anna 200 "{\"holds\":[$on_class,$on_collection]}" /deposits/1/holds
    asks anna 200 "{\"holds\":[$on_class]}" /deposits/2/holds
    asks anna 409 '{"error":"Held","hold":1}' /deposits/1 -X DELETE
    asks anna 403 '{"error":"Denied","rule":1}' /deposits/2 -X DELETE
    asks anna 403 '{"error":"Denied","rule":4}' /holds/1 -X DELETE
    asks carl 403 '{"error":"Denied","rule":"default"}' /holds/1 -X DELETE
    asks anna 200 '{"hold":2,"released":"2024-03-01"}' /holds/2 -X DELETE
    asks anna 201 '{"deposit":3}' '/deposits?collection=maps&class=drawn&accession=A-3&closed=2024-02-29' \
        --data-binary "@$bag"
    asks anna 409 '{"error":"Held","hold":1}' /deposits/3 -X DELETE
    asks anna 200 "{\"holds\":[$on_class]}" /deposits/3/holds
    asks anna 404 '{"error":"NoSuch","what":"class"}' /holds -d '{"class":"maps","matter":"Case 9"}'
    asks anna 404 '{"error":"NoSuch","what":"collection"}' /holds -d '{"collection":"drawn","matter":"Case 9"}'
    asks anna 400 '{"error":"BadBody"}' /holds -d '{"class":"drawn","collection":"maps","matter":"Case 9"}'
    asks anna 400 '{"error":"BadBody"}' /holds -d '{"matter":"Case 9"}'
    asks anna 400 '{"error":"BadBody"}' /holds -d '{"class":"drawn"}'
    asks anna 404 '{"error":"NoSuch","what":"hold"}' /holds/3 -X DELETE
    asks anna 200 '{"day":"2024-03-01","deposits":[]}' /due
}

# Those of 2024-12-31: a clerk reads records, and lists nothing; the hold is released; rule 1 keeps what is in `tax`.
on_the_last() {
    asks carl 200 '{"deposits":[]}' '/deposits?collection=maps'
    asks carl 200 "$listed" /deposits/1
    asks anna 200 '{"day":"2024-12-31","deposits":[]}' /due
    asks anna 200 '{"hold":1,"released":"2024-12-31"}' /holds/1 -X DELETE
    asks anna 409 '{"day":"2024-12-31","error":"Released"}' /holds/1 -X DELETE
    asks anna 200 '{"holds":[]}' /deposits/2/holds
    asks anna 200 '{"day":"2024-12-31","deposits":[1,3]}' /due
    asks anna 403 '{"error":"Denied","rule":1}' /deposits/2 -X DELETE
    asks anna 200 '{"day":"2024-12-31","destroyed":1}' /deposits/1 -X DELETE
    asks carl 410 '{"day":"2024-12-31","error":"Gone"}' /deposits/1
}

# Those of 2025-01-01: rule 1 is over, and the deposit in `tax` can be destroyed.
on_the_next() {
    asks anna 200 '{"day":"2025-01-01","deposits":[2,3]}' /due
    asks anna 200 '{"day":"2025-01-01","destroyed":2}' /deposits/2 -X DELETE
    asks anna 201 '{"hold":3}' /holds -d '{"class":"drawn","matter":"Case 9"}'
    asks anna 409 '{"error":"Held","hold":3}' /deposits/3 -X DELETE
}

# Serves a store on a day, and asks what a function asks.
on_day() {
    day=$1 serve "$(declare -f "$2" | grep -c '^ *asks ')" "$3"
    "$2"
    ends_well
}

# The office ends by itself, after its last connection.
ends_well() {
    ended "$office" || fail "serve is to end with 0 after its last connection, and ended with $?"
}

# What is wanted of a command, on its outputs and as its status, and its arguments. It gets the record of a request, or
# `input`.
prints() {
    local out=$1 err=$2 wanted=$3 status=0 came
    shift 3
    questions=$((questions + 1))
    timeout 60 "$program" "$@" <"${input:-$room/record}" >"$room/out" 2>"$room/err" || status=$?
    printf %s "$out" >"$room/wanted-out"
    printf %s "$err" >"$room/wanted-err"
    if ! cmp -s "$room/out" "$room/wanted-out" || ! cmp -s "$room/err" "$room/wanted-err" ||
        [ "$status" -ne "$wanted" ]; then
        came="'$(cat "$room/out")', '$(cat "$room/err")' and $status"
        fail "$*: '$out', '$err' and $wanted are wanted, and this came: $came"
    fi
}

# A malformed policy: its fault, its sentence with the place, and arguments of sed that make it of the policy with days.
# Each command that reads a policy refuses it, and the office is as it was.
no_policy() {
    local file=$room/other.toml
    sed "${@:3}" "$dated" >"$file"
    cp "$dated_store" "$room/before"
    prints "policy $1"$'\n' "$2"$'\n' 1 policy "$dated_store" "$file"
    prints '' "policy $1"$'\n'"$2"$'\n'"depot: $file is no policy"$'\n' 1 replay --policy "$file" "$dated_store"
    prints "policy $1"$'\n' "$2"$'\n' 1 explain --day 2024-03-01 "$file" anna dispose tax drawn
    prints "policy $1"$'\n' "$2"$'\n' 1 explain "$file" anna dispose tax drawn
    cmp "$room/before" "$dated_store" >&2 || fail "policy was refused, and changed the office"
}

# The sentence of a malformed rule, with the key at fault.
no_rule() {
    echo "rule $1 of the policy is not well formed: it is effect, role, action, collection and class, each with a" \
        "value that it may have, and under version 2 it may have first and last, days of which first is not after" \
        "last (Y5): the key $2"
}

# What `explain` says of the policy on days, and of malformed policies and days.
days_and_faults() {
    local missing='the option --day DAY is missing: the policy has version 2, in which rules may count on'
    missing+=' certain days alone'
    local no_day='DAY is a date such as 2024-03-01, from 1900-01-01 to 9799-12-31' asked
    local tax='rule 1 of the policy denies it: role archivist, action dispose, collection tax, any class'
    local drawn='rule 4 of the policy denies it: role archivist, action release, any collection, class drawn'
    local none='no rule of the policy matches, so it is denied by default'
    prints $'allow rule 5\n' '' 0 explain --day 2023-12-31 "$dated" anna dispose tax drawn
    prints $'deny rule 1\n' "$tax, from 2024-01-01 to 2024-12-31"$'\n' 1 explain --day 2024-01-01 "$dated" anna \
        dispose tax drawn
    prints $'deny rule 1\n' "$tax, from 2024-01-01 to 2024-12-31"$'\n' 1 explain --day 2024-12-31 "$dated" anna \
        dispose tax drawn
    prints $'allow rule 5\n' '' 0 explain --day 2025-01-01 "$dated" anna dispose tax drawn
    prints $'allow rule 2\n' '' 0 explain --day 1900-01-01 "$dated" carl list maps drawn
    prints $'allow rule 2\n' '' 0 explain --day 2024-03-01 "$dated" carl list maps drawn
    prints $'deny default\n' "$none"$'\n' 1 explain --day 2024-03-02 "$dated" carl list maps drawn
    prints $'deny default\n' "$none"$'\n' 1 explain --day 2024-12-30 "$dated" carl record maps drawn
    prints $'allow rule 3\n' '' 0 explain --day 2024-12-31 "$dated" carl record maps drawn
    prints $'allow rule 3\n' '' 0 explain --day 9799-12-31 "$dated" carl record maps drawn
    prints $'allow rule 5\n' '' 0 explain --day 2024-02-29 "$dated" anna release - drawn
    prints $'deny rule 4\n' "$drawn, from 2024-03-01 to 2024-03-01"$'\n' 1 explain --day 2024-03-01 "$dated" anna \
        release - drawn
    prints $'allow rule 5\n' '' 0 explain --day 2024-03-01 "$dated" anna release maps -
    prints $'allow rule 5\n' '' 0 explain --day 2024-03-02 "$dated" anna release - drawn
    prints $'deny rule 1\n' "$tax"$'\n' 1 explain --day 2025-01-01 "$policy" anna dispose tax drawn
    prints '' "$missing"$'\n' 2 explain "$dated" anna dispose tax drawn
    for asked in 2024-02-30 1899-12-31 9800-01-01 2024-3-1 ''; do
        prints '' "$no_day"$'\n' 2 explain --day "$asked" "$dated" anna dispose tax drawn
        prints '' "$no_day"$'\n' 2 ask "$dated_store" "$asked"
        prints '' "$no_day"$'\n' 2 serve --port 0 --count 1 "$dated_store" "$asked"
        sed "1s/$day/$asked/" "$room/record" >"$room/no-day"
        input=$room/no-day prints '' $'record 1\ndepot: record 1 of the input is malformed\n' 1 replay "$dated_store"
    done

    no_policy 'Y5 1' "$(no_rule 1 last)" 's/version = 2/version = 1/; s/^first.*01-01"$//'
    no_policy 'Y5 1' "$(no_rule 1 first)" 's/version = 2/version = 1/'
    no_policy 'Y5 1' "$(no_rule 1 first)" 's/"2024-12-31"/"2023-12-31"/'
    no_policy 'Y5 1' "$(no_rule 1 first)" 's/"2024-01-01"/"2025-01-01"/'
    no_policy 'Y5 2' "$(no_rule 2 last)" '/list/,/last/ s/"2024-03-01"/"2024-02-30"/'
    no_policy 'Y5 3' "$(no_rule 3 first)" '/record/,/first/ s/"2024-12-31"/"1899-12-31"/'
    no_policy 'Y5 3' "$(no_rule 3 first)" '/record/,/first/ s/"2024-12-31"/"2024-12-31 "/'
    no_policy 'Y5 3' "$(no_rule 3 first)" '/record/,/first/ s/"2024-12-31"/2024-12-31/'
    no_policy 'Y5 3' "$(no_rule 3 from)" '/record/,/first/ s/^first/from/'
    no_policy Y2 'the policy has no version, or one that is neither the whole number 1 nor 2 (Y2)' \
        's/version = 2/version = 3/'
}

# Has a number of connections served from a store: `serve COUNT STORE`.
serve() {
    serve_office "$2" "$day" "$1"
}

# Puts a command to a store, with something to do for it. One that would serve is ended after a minute.
put() {
    local input=$room/record
    case $1 in
    policy) set -- policy "$2" "$policy" ;;
    ask) set -- ask "$2" "$day" && input=$room/request ;;
    replay) set -- replay "$2" ;;
    'replay --policy') set -- replay --policy "$policy" "$2" ;;
    serve) set -- serve --port 0 --count 1 "$2" "$day" ;;
    esac
    timeout 60 "$program" "$@" <"$input"
}

# A command, a store, and what the command must print to standard error, where STORE is its path: the command prints
# nothing else and ends with 3, and the bytes of the store and the names beside it stay as they were.
refuses() {
    local wanted=${3//STORE/"$2"} status=0 said
    refusals=$((refusals + 1))
    cp "$2" "$room/before"
    ls -A "$(dirname "$2")" >"$room/names"
    put "$1" "$2" >"$room/out" 2>"$room/err" || status=$?
    said=$(cat "$room/out" "$room/err")
    compare "$1 on $2" "$wanted; 3" "$said; $status"
    cmp "$room/before" "$2" >&2 || fail "$1 was refused, and changed $2"
    ls -A "$(dirname "$2")" >"$room/names-now"
    diff "$room/names" "$room/names-now" >&2 || fail "$1 was refused, and changed what is beside $2"
}

# Makes a database with commits in its log: at the first path, where there may be one, and then copies the two to
# the second while they are open, so that the log keeps its commits. The third word goes into the file, the fourth
# into the log.
logged() {
    python3 - "$@" <<'SCRIPT'
import shutil
import sqlite3
import sys

made, copy, in_file, in_log = sys.argv[1:]
database = sqlite3.connect(made, isolation_level=None)
database.executescript(in_file)
assert database.execute("PRAGMA journal_mode = WAL").fetchall() == [("wal",)]
database.execute("PRAGMA wal_autocheckpoint = 0").fetchall()
database.executescript(in_log)
shutil.copy(made, copy)
shutil.copy(f"{made}-wal", f"{copy}-wal")
SCRIPT
}

# The rows that sqlite3 finds in a copy of a database, with a log where one is named.
rows() {
    rm -rf "$room/looked"
    mkdir "$room/looked"
    cp "$1" "$room/looked/db"
    [ $# -eq 1 ] || cp "$2" "$room/looked/db-wal"
    sqlite3 -batch "$room/looked/db" .dump
}

# A database with a log, what the command must print to standard error, and a row that the log has and the file hasn't:
# each command refuses a fresh copy of the two, and sqlite3 finds the same rows as before.
refused_with_log() {
    local command fresh=$room/fresh/office.db
    rows "$1" >"$room/alone"
    rows "$1" "$1-wal" >"$room/rows"
    if grep -qF "$3" "$room/alone" || ! grep -qF "$3" "$room/rows"; then
        fail "$3 is wanted in the log of $1, and not in its file"
    fi
    for command in "${commands[@]}"; do
        rm -rf "$room/fresh"
        mkdir "$room/fresh"
        cp "$1" "$fresh"
        cp "$1-wal" "$fresh-wal"
        refuses "$command" "$fresh" "$2"
        rows "$fresh" "$fresh-wal" >"$room/rows-now"
        diff "$room/rows" "$room/rows-now" >&2 || fail "$command was refused, and changed rows"
    done
}

# Each command refuses a store that another process has open.
refused_open() {
    local command
    for command in "${commands[@]}"; do
        refuses "$command" "$1" $'store Q4\ndepot: cannot open STORE: database is locked'
    done
}

# Has SQLite in a process of its own run these statements on a store, the last of which reads, and hold it open.
reads() {
    rm -f "$room/reading"
    python3 - "$@" >"$room/reading" <<'SCRIPT' &
import sqlite3
import sys
import time

database = sqlite3.connect(sys.argv[1], isolation_level=None)
for text in sys.argv[2:]:
    rows = database.execute(text).fetchall()
assert rows
print("reading", flush=True)
time.sleep(600)
SCRIPT
    reading=$!
    await "$reading" "$room/reading" reading
}

# Serves a store with the least number of descriptors by which it can be opened and the port taken, so that no
# connection can be accepted. That stops the command, once a connection comes or before.
starved() {
    local number status=0 lines came
    for number in {4..16}; do
        rm -f "$room/listening"
        (
            ulimit -n "$number"
            exec "$program" serve --port 0 --count 1000000 "$1" "$day"
        ) >"$room/listening" 2>"$room/err" &
        office=$!
        await_port "$office" "$room/listening" 2>/dev/null && break
        ended "$office" || true
    done
    if curl -s --max-time 60 -H 'Depot-Caller: anna' "$address/due" >"$room/out"; then
        fail "with $number descriptors no connection is to be accepted, and one was answered: $(cat "$room/out")"
    fi
    ended "$office" || status=$?
    mapfile -t lines <"$room/err"
    reason='depot: cannot accept a connection: Too many open files (os error 24)'
    if [ "$status ${#lines[@]} ${lines[0]-}" != '3 2 device' ] || [ "${lines[1]}" != "$reason" ]; then
        came="'$(cat "$room/err")' and $status"
        fail "with $number descriptors 'device', '$reason' and 3 are wanted, and this came: $came"
    fi
    echo "$number descriptors: no connection is accepted, and serve stops with 3, device and: ${lines[1]#depot: }"
}

"$program" policy "$store" "$policy" >"$room/installed"
# Limits that are met soon, and a class whose years no request can write.
sqlite3 "$store" "UPDATE office SET max_deposits = 5, max_holds = 3; INSERT INTO class VALUES ('odd', 300)"
count=$(declare -f all | grep -c '^ *asks ')
serve "$count" "$store"
! sqlite3 "$store" 'SELECT count(*) FROM deposit' >"$room/locked" 2>&1 || fail "sqlite3 reads a store that is served"
matches "sqlite3 on a store that is served" '*database is locked*' "$(cat "$room/locked")"
before=$cases
all
ends_well
echo "curl: $((cases - before)) requests answered as worked out"

request PUT /collections/maps >"$room/request"
record <"$room/request" >"$room/record"

dated_store=$room/dated.db
before=$cases
prints $'installed 3 rules 2 callers\n' '' 0 policy "$dated_store" "$policy"
prints $'installed 5 rules 2 callers\n' '' 0 policy "$dated_store" "$dated"
on_day 2024-03-01 on_the_first "$dated_store"
days_and_faults
on_day 2024-12-31 on_the_last "$dated_store"
on_day 2025-01-01 on_the_next "$dated_store"
echo "days: $((cases - before)) requests on three days are decided by a policy of version 2, and $questions commands" \
    "are answered or refused"

mkdir "$room/made" "$room/logged" "$room/held" "$room/taken"
logged "$room/made/notes.db" "$room/logged/notes.db" \
    "CREATE TABLE note (number INTEGER PRIMARY KEY, said TEXT NOT NULL); INSERT INTO note VALUES (1, 'first')" \
    "UPDATE note SET said = 'changed'; INSERT INTO note VALUES (2, 'second')"
refused_with_log "$room/logged/notes.db" $'store Q1\ndepot: STORE is another database, and no office' "(1,'changed')"
"$program" policy "$room/made/earlier.db" "$policy" >"$room/installed"
logged "$room/made/earlier.db" "$room/logged/earlier.db" "" "UPDATE office SET version = 2"
refused_with_log "$room/logged/earlier.db" $'store Q2\ndepot: STORE is an office of another version' \
    '(1,2,1000000,1000000)'
echo "commits in a log: ${#commands[@]} commands refuse another database and another version's office, and leave both" \
    "as they were"

taken=$room/taken/office.db
cp "$store" "$taken"
sqlite3 "$taken" 'PRAGMA foreign_keys = OFF; DELETE FROM content WHERE id = (SELECT min(content) FROM file)'
# An opening makes the log, and writes its head, before it reads the file's rows: so a log is there from the start, and
# may get no page.
: >"$taken-wal"
for command in "${commands[@]}"; do
    refuses "$command" "$taken" $'store Q4\ndepot: cannot open STORE: file is not a database that obeys its schema'
done
[ "$(stat -c %s "$taken-wal")" -lt 4096 ] || fail "$taken was refused, and its log has a page"
echo "a content taken out: ${#commands[@]} commands refuse a store with a file whose content another program took" \
    "out, and leave it as it was"

held=$room/held/office.db
"$program" policy "$held" "$policy" >"$room/installed"
for begin in BEGIN 'SELECT 1'; do
    reads "$held" "$begin" 'SELECT version FROM office'
    refused_open "$held"
    end_process "$reading"
    put ask "$held" >"$room/out"
    matches "ask, once the reader has ended" '*{"collection":"maps"}*' "$(tr -d '\0' <"$room/out")"
done
serve 1 "$held"
refused_open "$held"
asks anna 200 '{"collection":"maps"}' /collections/maps -X PUT
ends_well
echo "open elsewhere: ${#commands[@]} commands refuse a store that SQLite reads, has read or depot serves, and leave" \
    "it as it was"

few=$room/few.db
"$program" policy "$few" "$policy" >"$room/installed"
starved "$few"
serve 2 "$few"
asks anna 200 '{"collection":"maps"}' /collections/maps -X PUT
asks anna 200 '{"deposits":[]}' /deposits
ends_well

python3 "$top/trials/serve_client.py" "$program" "$room" "$dated" "$kills"
echo "serve: $cases requests by curl and refusals, $questions commands on policies and days, $refusals refused" \
    "commands on databases with a log and stores that are open elsewhere, all kinds of peers and $kills kills: as" \
    "docs/ says"
