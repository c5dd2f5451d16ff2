#!/usr/bin/env bash
# Stops an office 25 times with nginx in front of it and 25 times with Caddy, each with its file of `examples/`, under
# the load of eight clients (stops_client.py), slow uploads among them. Each stop is `close`, SIGTERM, a start, and
# `open`. No client gets 502, or anything but what it asked for and 503 `Closed` with Retry-After (or 429 `TooMany`);
# each upload that began before a stop is taken; each deposit that was answered 201 is there with its bytes, under its
# number; nothing else is there. The controls: without `close` clients get 502, also for deposits that are kept; without
# its wait for the proxy they get 502; so does a request that nginx lets wait for its turn, where it doesn't look for
# the file again. Then two uploads that take longer than the stop waits, and what `close` and `open` say to their
# arguments.
# Argument: the program; if left out, that of DEPOT, or the repository's own.
set -eu
top=$(readlink -f "$(dirname "$(readlink -f "$0")")/..")
. "$top/trials/needs.sh"
. "$top/trials/cases.sh"
. "$top/trials/processes.sh"
. "$top/trials/offices.sh"
. "$top/trials/proxies.sh"
needs nginx caddy openssl curl python3
needs_program "$@"
make_room
units=$top/examples/systemd
cd "$room"
closed=$room/office.closed
day=2024-03-01
rounds=25
# What `judge` counts.
answered=0 shut=0 through=0 refused=0 lost=0 unreachable=0 other=0 missing=0 uncertain=0 untrue=0

desk=$(free_port)
none=$(free_port)

# ---- the office

password=secret
users=(u1 u2 u3 u4 u5 u6 u7 u8)
{
    printf 'version = 1\n\n[callers]\n'
    printf '%s = "archivist"\n' "${users[@]}"
    printf '\n[[rule]]\neffect = "allow"\nrole = "archivist"\naction = "*"\ncollection = "*"\nclass = "*"\n'
} >policy.toml

start() {
    "$program" serve --port "$desk" --count 1000000 office.db "$day" >listening 2>office.log &
    office=$!
}

# Ends it a few milliseconds after its log was written, or after five seconds at most.
stop_at_a_change() {
    python3 - "$office" <<'END'
import os, random, signal, sys, time
before, end = os.stat("office.db-wal").st_mtime_ns, time.time() + 5
while os.stat("office.db-wal").st_mtime_ns == before and time.time() < end:
    time.sleep(0.0002)
time.sleep(random.uniform(0, 0.003))
os.kill(int(sys.argv[1]), signal.SIGTERM)
END
    ended "$office" || true
}

# An office with two deposits, and nothing else.
anew() {
    rm -f office.db office.db-wal "$closed"
    "$program" policy office.db policy.toml >/dev/null
    start
    MAINPID=$office "$units/open" "$closed" "$desk"
    local asks=(curl -sS --fail -o /dev/null -H 'Depot-Caller: u1')
    "${asks[@]}" -X PUT -d '{"years":1}' "http://127.0.0.1:$desk/classes/y1"
    "${asks[@]}" -X PUT -d '{"years":0}' "http://127.0.0.1:$desk/classes/y0"
    "${asks[@]}" -X PUT "http://127.0.0.1:$desk/collections/maps"
    for each in 1 2; do
        "${asks[@]}" --data-binary "@$top/examples/bag-a.bagset" \
            "http://127.0.0.1:$desk/deposits?collection=maps&class=y1&accession=first-$each&closed=2024-02-29"
    done
}

# ---- clients and stops

# Eight clients, whose accessions begin with a word.
begin_clients() {
    rm -f end
    python3 "$top/trials/stops_client.py" "$https" "$1" "answers.$1" end "${2-0.1}" &
    clients=$!
    sleep 2
}

end_clients() {
    touch end
    ended "$clients" || fail "the clients failed"
}

# One upload that takes this number of seconds: `upload PREFIX SECONDS USER`.
upload() {
    python3 "$top/trials/stops_client.py" "$https" "$1" "answers.$1" end 0 "$2" "$3" &
    uploading=$!
    sleep 1
}

# Closes the office, with the moment before in `moments`; stops it, and starts it again.
close_it() {
    echo "$EPOCHREALTIME" >>moments
    "$units/close" "$closed" "$@" >told 2>trouble || fail "close ended with $?: $(cat trouble)"
}

open_it() {
    MAINPID=$office "$units/open" "$closed" "$desk" || fail "open ended with $?: $(cat office.log)"
    [ ! -e "$closed" ] || fail "$closed stays after open"
}

# What is in the office, as lines of a number, an accession and a digest of the deposit's bag. The office is stopped.
kept() {
    stop_office
    python3 - "$program" "$day" <<'END'
import hashlib, json, subprocess, sys
program, day = sys.argv[1:]


def asks(targets):
    requests = [f"GET {t} HTTP/1.1\r\nDepot-Caller: u1\r\n\r\n".encode() for t in targets]
    records = b"".join(b"REQ %s %d\n%s\n" % (day.encode(), len(r), r) for r in requests)
    out = subprocess.run([program, "replay", "office.db"], input=records, stdout=subprocess.PIPE, check=True).stdout
    while out:
        line, _, out = out.partition(b"\n")
        length = int(line.split(b" ")[1])
        yield out[:length].partition(b"\r\n\r\n")[2]
        out = out[length + 1 :]


deposits = json.loads(next(asks(["/deposits"])))["deposits"]
bags = asks([f"/deposits/{d['deposit']}/bag" for d in deposits])
for d, b in zip(deposits, bags, strict=True):
    if not d["accession"].startswith("first-"):
        print(d["deposit"], d["accession"], hashlib.sha256(b).hexdigest())
END
    start
    open_it
}

# Compares the answers that the clients got with what is kept: `judge PREFIX`. Prints, in one line, how many deposits
# were answered 201, how many requests 503, how many uploads went on through a stop, and what is wrong, each as
# NAME=NUMBER.
judge() {
    kept >there
    python3 - "$top/trials" "$1" <<'END'
import hashlib, json, sys
sys.path.insert(0, sys.argv[1])
prefix = sys.argv[2]
from stops_client import bag

moments = [float(line) for line in open("moments")]
kept = {}
for line in open("there"):
    number, accession, digest = line.split()
    if accession.startswith(prefix + "-"):
        kept[accession] = (int(number), digest)
counts = dict.fromkeys("answered shut busy through refused lost unreachable other missing uncertain untrue".split(), 0)
wrong = []
answered = {}
for line in open(f"answers.{prefix}"):
    began, over, kind, name, status, again, body = line.rstrip("\n").split("\t")
    began, over = float(began), float(over)
    # (its head was there when the file was made)
    through = kind == "slow" and any(began + 0.3 < moment < over for moment in moments)
    if status == "201" and kind != "read":
        counts["answered"] += 1
        counts["through"] += through
        answered[name] = json.loads(body)["deposit"]
        continue
    counts["refused"] += through
    if status == "200" and kind == "read":
        pass
    elif status == "503" and body == '{"error":"Closed"}' and again.isdigit() and int(again) > 0:
        counts["shut"] += 1
    elif status == "429" and body == '{"error":"TooMany"}':
        counts["busy"] += 1
    elif status == "502" and body == '{"error":"Lost"}':
        counts["lost"] += 1
    elif status == "502" and body == '{"error":"Unreachable"}':
        counts["unreachable"] += 1
        if name in kept:
            counts["untrue"] += 1
            wrong.append(f"{name} was answered as if nothing was done, and is there")
    else:
        counts["other"] += 1
        wrong.append(line.rstrip("\n"))
for name, number in answered.items():
    if kept.get(name) != (number, hashlib.sha256(bag(name)).hexdigest()):
        counts["missing"] += 1
        wrong.append(f"{name} was answered as deposit {number}, and isn't there so")
for name in kept:
    if name not in answered:
        counts["uncertain"] += 1
print(*(f"{name}={count}" for name, count in counts.items()))
print(*wrong[:5], sep="\n", file=sys.stderr)
END
}

# ---- a proxy's cases

# With `close` and `open`.
stops() {
    local round
    anew
    : >moments
    begin_clients "$proxy"
    for round in $(seq "$rounds"); do
        close_it 30 "$status"
        grep -qs 'no request in hand after' told || fail "stop $round: $(cat told trouble)"
        stop_office
        start
        open_it
        sleep 0.6
    done
    end_clients
    judge "$proxy" >counts 2>wrong
    eval "$(cat counts)"
    middle="nothing is to be refused in the middle, lost, missing or uncertain"
    [ "$((refused + lost + unreachable + other + missing + uncertain))" -eq 0 ] ||
        fail "$rounds stops: $middle, and this came: $(cat counts wrong)"
    if [ "$through" -lt "$rounds" ] || [ "$shut" -lt "$rounds" ] || [ "$answered" -lt "$rounds" ]; then
        fail "$rounds stops: too little happened for that to mean something: $(cat counts)"
    fi
    all="$all, by $proxy $answered deposits, $through uploads through a stop and $shut answers Closed"
    cases=$((cases + rounds))
}

# The control without `close`: clients get 502, and some of those deposits are kept. (Up to 30 stops.)
without_close() {
    local try
    anew
    : >moments
    for try in 1 2 3 4 5 6; do
        begin_clients "plain-$proxy-$try" 0
        for _ in 1 2 3 4 5; do
            stop_at_a_change
            start
            open_it
            sleep 0.4
        done
        end_clients
        judge "plain-$proxy-$try" >counts 2>wrong
        eval "$(cat counts)"
        [ "$((missing + shut + untrue))" -eq 0 ] || fail "without close: $(cat counts wrong)"
        [ "$((lost + unreachable))" -gt 0 ] ||
            fail "without close nobody got 502, so this script shows nothing: $(cat counts wrong)"
        [ "$uncertain" -eq 0 ] || break
    done
    [ "$uncertain" -gt 0 ] ||
        fail "without close no deposit was kept that was answered 502, so this script shows nothing"
    cases=$((cases + try))
}

# The control without the wait: the uploads of the moment find no office.
without_wait() {
    anew
    : >moments
    begin_clients "unasked-$proxy"
    close_it 30
    grep -q 'nothing was waited for' told || fail "close without a status page says: $(cat told trouble)"
    stop_office
    sleep 2.5
    start
    open_it
    end_clients
    judge "unasked-$proxy" >counts 2>wrong
    eval "$(cat counts)"
    [ "$((missing + untrue))" -eq 0 ] || fail "without the wait: $(cat counts wrong)"
    [ "$((unreachable + lost))" -gt 0 ] ||
        fail "without the wait nobody got 502, so this script shows nothing: $(cat counts wrong)"
    cases=$((cases + 1))
}

# What uploads get that take longer than the stop waits: one that ends while no office is there, and one that ends in
# the next.
limit() {
    local first
    anew
    : >moments
    upload "none-$proxy" 5 u7
    first=$uploading
    upload "next-$proxy" 12 u8
    close_it 2 "$status"
    grep -q 'still has requests in hand; the stop goes on' trouble ||
        fail "an upload that goes on: close says $(cat told trouble)"
    stop_office
    ended "$first" || fail "an upload failed"
    start
    open_it
    ended "$uploading" || fail "an upload failed"
    judge "none-$proxy" >counts 2>wrong
    eval "$(cat counts)"
    [ "$unreachable/$uncertain/$answered" = 1/0/0 ] || fail "an upload that ends without an office: $(cat counts wrong)"
    judge "next-$proxy" >counts 2>wrong
    eval "$(cat counts)"
    [ "$unreachable/$missing/$answered" = 0/0/1 ] || fail "an upload that ends in the next office: $(cat counts wrong)"
    cases=$((cases + 2))
}

# nginx lets a user's requests wait for their turn before it counts them. What one gets that waited when the office was
# closed and stopped: `queued ANSWER EDIT`, where EDIT is for the file of nginx.
queued() {
    local asks=(curl -sS --cacert office.crt -u "u1:$password" -w ' %{http_code}')
    edit="s/rate=50r/rate=1r/; $2"
    start_nginx "$room" "$desk"
    edit=
    anew
    : >moments
    "${asks[@]}" -o first "https://localhost:$https/due" >/dev/null
    "${asks[@]}" "https://localhost:$https/due" >second &
    waiting=$!
    sleep 0.3
    close_it 30 "http://127.0.0.1:$page/"
    stop_office
    ended "$waiting" || true
    [ "$(cat second)" = "$1" ] || fail "a request that waited for its turn: $1 is wanted, and this came: $(cat second)"
    stop_proxy
    cases=$((cases + 1))
}

# ---- arguments

# What `close` or `open` says: the status, what is wanted on both outputs (a pattern), whether the file is there after,
# and the call.
says() {
    local wanted=$1 text=$2 there=$3 got=0 has=no
    shift 3
    "$@" >told 2>&1 || got=$?
    [ ! -e "$closed" ] || has=yes
    # shellcheck disable=SC2254 # a pattern
    case $(cat told) in $text) ;; *) got="$got, and another text" ;; esac
    [ "$got/$has" = "$wanted/$there" ] ||
        fail "$*: $wanted and '$text' are wanted, the file is there: $there; this came: $got, $has: $(cat told)"
    [ "$wanted" -ne 2 ] || [ "$(wc -l <told)" -eq 1 ] || fail "$*: one line is wanted: $(cat told)"
    cases=$((cases + 1))
}

arguments() {
    local each
    rm -f "$closed"
    says 2 'close: *' no "$units/close"
    says 2 'close: *' no "$units/close" "$closed"
    says 2 'close: *' no "$units/close" "$closed" 10 http://127.0.0.1:1/ more
    for each in '' ten -1 1.5 010 12345; do
        says 2 'close: *' no "$units/close" "$closed" "$each"
    done
    says 2 'close: *' no "$units/close" "$closed" 10 127.0.0.1:1
    says 2 'close: *' no "$units/close" '' 10
    says 2 'close: *' no "$units/close" "$room/" 10
    says 1 'close: */nowhere/office.closed *' no "$units/close" "$room/nowhere/office.closed" 10
    # no status page, twice; an empty one, as of a setting that is left empty; one that no proxy has; one that tells
    # something else
    for each in 1 2; do
        says 0 '*nothing was waited for' yes "$units/close" "$closed" 10
    done
    says 0 '*nothing was waited for' yes "$units/close" "$closed" 10 ''
    says 0 'close: no proxy answers *' yes "$units/close" "$closed" 10 "http://127.0.0.1:$none/office"
    says 0 "close: *isn't a page that tells *" yes "$units/close" "$closed" 10 "http://127.0.0.1:$desk/due"
    # as a unit runs it whose process has ended, and whose process hasn't
    rm -f "$closed"
    says 0 '*ended already' yes env -u MAINPID sh -c 'SYSTEMD_EXEC_PID=$$ exec "$@"' sh "$units/close" "$closed" 10 \
        "$status"
    says 0 '*no request in hand after [0-3].?? s' yes env MAINPID="$office" sh -c 'SYSTEMD_EXEC_PID=$$ exec "$@"' sh \
        "$units/close" "$closed" 10 "$status"

    says 2 'open: *' yes "$units/open" "$closed"
    for each in '' 0 65536 080 x 123456; do
        says 2 'open: *' yes "$units/open" "$closed" "$each"
    done
    says 2 'open: *' yes "$units/open" '' "$desk"
    # a process that is gone, and one that doesn't listen yet
    true &
    wait $!
    says 1 'open: the office ended *' yes env MAINPID=$! "$units/open" "$closed" "$none"
    says 124 '' yes timeout 1 env MAINPID="$office" "$units/open" "$closed" "$none"
    for each in 1 2; do
        says 0 '' no env MAINPID="$office" "$units/open" "$closed" "$desk"
    done
}

all=
for proxy in nginx caddy; do
    anew
    "start_$proxy" "$room" "$desk"
    for user in "${users[@]}"; do
        curl -sS --fail --cacert office.crt -u "$user:$password" -o /dev/null "https://localhost:$https/due"
    done
    status=http://127.0.0.1:$page/
    stop_office
    stops
    stop_office
    without_close
    stop_office
    without_wait
    stop_office
    limit
    arguments
    stop_office
    stop_proxy
done
proxy=nginx
queued '{"error":"Closed"} 503' ''
# (the control: without the look for the file after the counting)
queued '{"error":"Unreachable"} 502' '/location @open/,/proxy_pass/{/if \(-f/,/\}/d}'
echo "stops: $cases cases$all: no 502, nothing lost, nothing kept without its answer; without close each is seen"
