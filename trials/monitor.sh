#!/usr/bin/env bash
# Calls `examples/monitor`, as docs/OPERATING.md does, for an office that is well and for offices that aren't: one that
# was killed, one on another day, one that is silent, one that a fault has shut, one on a full disk, one whose policy
# lets the monitor change nothing, one without a copy or with an old one, one with little room, one whose copies are on
# its own file system, one whose certificate ends. The status and one line name each, several troubles too. It refuses
# invalid arguments. Two file systems in memory are the disks. Some cases show what the monitor would miss without
# CALLER, and that an office on a full disk still answers what is due.
# Argument: the program; if left out, that of DEPOT, or the repository's own.
set -eu
top=$(readlink -f "$(dirname "$(readlink -f "$0")")/..")
. "$top/trials/needs.sh"
. "$top/trials/cases.sh"
. "$top/trials/processes.sh"
. "$top/trials/offices.sh"
. "$top/trials/pages.sh"
needs curl python3 openssl
needs_mounts
needs_program "$@"
# The rest goes on where this script has mounts of its own.
if [ -z "${HAS_MOUNTS-}" ]; then
    HAS_MOUNTS=yes apart --mount "$0" "$program"
    exit
fi
make_room
undo() {
    umount "$room/work/backup" "$room/work"
}
mkdir "$room/work" "$room/bin" "$room/night"
mount -t tmpfs -o size=300m office "$room/work"
cd "$room/work"
mkdir backup
mount -t tmpfs -o size=8m copies backup
ln -s "$top/examples" examples
today=$(date +%F)
called=$(block "A check for a monitor" 1)
monitor=$top/examples/monitor

# Has an office serve on this day, and sets `desk` to its address.
serve() {
    serve_office office.db "$1"
    desk=$address
}

# What was done, the status and the line that are wanted, as a pattern, and the call. The line is the only one on
# standard output, and standard error has none.
expect() {
    local what=$1 wanted=$2 status=0 found
    shift 2
    "$@" >"$room/out" 2>"$room/err" || status=$?
    found="$status; $(cat "$room/out" "$room/err")"
    if [ "$(wc -l <"$room/out") $(wc -c <"$room/err")" = "1 0" ]; then
        # shellcheck disable=SC2254 # it is a pattern
        case $found in
        $wanted)
            cases=$((cases + 1))
            return
            ;;
        esac
    fi
    fail "$what: '$wanted' is wanted, on one line, and this came: '$found'"
}

# The page's call, word for word but for the address.
page() {
    bash -c "${called//'http://127.0.0.1:8080'/$desk}"
}

# The same without CALLER.
alone() {
    STORE=office.db "$monitor" "$desk" backup
}

# Arguments that it refuses: one line on standard error that has this.
refused() {
    local status=0 what=$1
    shift
    "$@" >"$room/out" 2>"$room/err" || status=$?
    case "$status $(wc -c <"$room/out") $(wc -l <"$room/err") $(cat "$room/err")" in
    "2 0 1 monitor: $what"*) cases=$((cases + 1)) ;;
    *) fail "'$*' is to be refused, '$what', and this came: $status, $(cat "$room/out" "$room/err")" ;;
    esac
}

# What anna gets: the body and the status.
asks() {
    anna -w ' %{http_code}' "$@"
}

# A stand-in for an office, which answers each connection by the next of these texts, and is silent after the last.
peer() {
    rm -f "$room/peer"
    python3 -u -c '
import socket, sys, time
desk = socket.create_server(("127.0.0.1", 0))
print(f"listening {desk.getsockname()[1]}")
for text in sys.argv[1:]:
    client, _ = desk.accept()
    client.recv(65536)
    status, _, body = text.partition(" ")
    body = body.encode().decode("unicode_escape").encode("latin-1")
    head = b"HTTP/1.1 %s X\r\nContent-Length: %d\r\nConnection: close\r\n\r\n" % (status.encode(), len(body))
    client.sendall(head + body)
    client.close()
client, _ = desk.accept()
time.sleep(60)
' "$@" >"$room/peer" &
    peer=$!
    await_port "$peer" "$room/peer"
    desk=$address
}

no_peer() {
    end_process "$peer"
}

# ---- an office that is well, and its copies

"$program" policy office.db "$top/examples/office.toml" >/dev/null
serve "$today"
[ "$(asks -X PUT -d '{"years":3}' "$desk/classes/y3") $(asks -X PUT "$desk/collections/maps")" = \
    '{"class":"y3","years":3} 200 {"collection":"maps"} 200' ]
[ "$(asks --data-binary "@$top/examples/bag-a.bagset" \
    "$desk/deposits?collection=maps&class=y3&accession=A-1&closed=2024-02-29")" = \
    '{"deposit":1} 201' ]
before=$(asks "$desk/deposits")

expect "an office without a copy" '1; WARNING: there is no copy in backup' page
cp "$top/README.md" "backup/$today.db.part"
expect "a copy that isn't whole" '1; WARNING: there is no copy in backup' page
cp office.db "backup/$today.db"
well="the office answers in 0.* s, on $today"
expect "an office that is well" "0; OK: $well; it takes changes; the newest copy is backup/$today.db" page
expect "the same without a caller" "0; OK: $well; no change was tried; the newest copy is backup/$today.db" alone
[ "$(asks "$desk/deposits")" = "$before" ] || fail "the monitor changed a deposit"
printf 'proxy = "http://127.0.0.1:1"\n' >"$room/.curlrc"
expect "a proxy in the environment, and a file of curl's" '0; OK: *' env HOME="$room" http_proxy=http://127.0.0.1:1 \
    bash -c "${called//'http://127.0.0.1:8080'/$desk}"
touch -d '37 hours ago' "backup/$today.db"
expect "a copy that is too old" "1; WARNING: the newest copy, backup/$today.db, is 22[12]? minutes old" page
cp office.db "backup/a copy of another name.db"
expect "a younger copy of another name" '0; OK: *; the newest copy is backup/a copy of another name.db' page
touch -d '20 minutes ago' backup/a*
AGE=15 expect "a copy older than this office's are" \
    '1; WARNING: the newest copy, backup/a copy of another name.db, is 20 minutes old' page
rm backup/a*
touch "backup/$today.db"
ln -s "$room/work/backup" "$room/link"
expect "a folder of copies by another name" "0; OK: *; the newest copy is $room/link/$today.db" env STORE=office.db \
    "$monitor" "$desk/" "$room/link" monitor
expect "no folder of copies" "1; WARNING: there is no folder of copies none that this user can read" env \
    STORE=office.db "$monitor" "$desk" none monitor

# ---- room

dd if=/dev/zero of=backup/filling bs=16k status=none 2>/dev/null || true
truncate -s -64k backup/filling
expect "little room for copies" '1; WARNING: the disk of backup has 6[4-8] KiB left, and two copies more take *' page
rm backup/filling
FREE=1000 expect "little room for the store" '1; WARNING: the disk of office.db has * KiB left, less than 1000 MiB' page
FREE=1000 expect "the same without a caller" '1; WARNING: the disk of office.db has * KiB left, less than 1000 MiB' \
    alone
mkdir -p here
cp office.db here/
expect "copies on the store's file system" '1; WARNING: office.db and its copies in here are on one file system' env \
    STORE=office.db "$monitor" "$desk" here monitor
rm -r here
expect "a store that isn't there for the user" \
    "0; OK: $well; it takes changes; *; not looked at: the disk of none/office.db, which isn't there for this user" \
    env STORE=none/office.db "$monitor" "$desk" backup monitor
unseen="none/office.db isn't there for this user"
expect "the same without a caller" \
    "1; WARNING: nothing shows whether changes are taken: CALLER is missing, and $unseen" \
    env STORE=none/office.db "$monitor" "$desk" backup

# ---- a full disk: what is due is still answered. The log may have room for some small changes, so the monitor names
# the lack of room at once, and the refusal with it.

# (`mount` reads no options of before where the file system is named)
mount -t tmpfs -o "remount,size=$(($(du -sk --exclude=backup . | cut -f 1) + 512))k" office "$room/work"
dd if=/dev/zero of=filling bs=4k status=none 2>/dev/null || true
expect "a full disk, without a caller" '1; WARNING: the disk of office.db has 0 KiB left, less than 256 MiB' alone
for _ in $(seq 200); do
    [ "$(asks -X PUT -d '{"years":3}' "$desk/classes/y3")" != '{"error":"Store"} 503' ] || break
done
[[ $(asks "$desk/due") == *' 200' ]] || fail "what is due isn't answered on a full disk"
FREE=0 expect "the same, where nobody looks at the room" "0; OK: $well; no change was tried; *" alone
FREE=0 expect "the same with a caller" '2; CRITICAL: the office takes no change: {"error":"Store"} 503' page
full="the disk of office.db has 0 KiB left, less than 256 MiB"
expect "a full disk, with a caller" "2; CRITICAL: the office takes no change: {\"error\":\"Store\"} 503; $full" \
    page
rm filling
mount -t tmpfs -o remount,size=300m office "$room/work"
expect "room again" '0; OK: *; it takes changes; *' page

# ---- certificates

# One that ends on this day: `openssl req` makes none that has ended.
certificate() {
    rm -rf "$room/ca"
    mkdir "$room/ca"
    : >"$room/ca/index"
    echo 01 >"$room/ca/serial"
    cat >"$room/ca/conf" <<END
[ca]
default_ca=a
[a]
database=$room/ca/index
serial=$room/ca/serial
new_certs_dir=$room/ca
policy=p
default_md=sha256
[p]
commonName=supplied
[req]
distinguished_name=d
[d]
END
    openssl req -config "$room/ca/conf" -new -newkey ec -pkeyopt ec_paramgen_curve:P-256 -nodes -keyout "$room/ca/key" \
        -subj /CN=x -out "$room/ca/new" 2>/dev/null
    openssl ca -batch -config "$room/ca/conf" -selfsign -keyfile "$room/ca/key" -in "$room/ca/new" \
        -out "$room/proxy.pem" -startdate 20200101000000Z -enddate "$(date -u -d "$1" +%Y%m%d%H%M%SZ)" 2>/dev/null
}
export CERTIFICATE=$room/proxy.pem
expect "a certificate that isn't there" \
    "1; WARNING: the certificate $room/proxy.pem can't be read, or openssl is missing" page
certificate '40 days'
expect "one that ends in 40 days" '0; OK: *' page
certificate '20 days'
expect "one that ends in 20 days" \
    "1; WARNING: the certificate $room/proxy.pem ends on $(date -u -d '20 days' '+%b %e') *" page
certificate '2 days'
expect "one that ends in two days" "2; CRITICAL: the certificate $room/proxy.pem ends, or ended, on *" page
certificate '1 day ago'
expect "one that ended yesterday" "2; CRITICAL: the certificate $room/proxy.pem ends, or ended, on *" page
# Several troubles: the failure comes first, though it is found last.
touch -d '37 hours ago' "backup/$today.db"
aged="the newest copy, backup/$today.db, is 22[12]? minutes old"
FREE=1000 expect "three troubles" \
    "2; CRITICAL: the certificate * GMT; $aged; the disk of office.db has * MiB" page
touch "backup/$today.db"
unset CERTIFICATE

# ---- the policy, the day, and an office that doesn't answer

untried="no change was tried, since the policy doesn't let"
expect "a caller whom the policy allows nothing" \
    "1; WARNING: $untried carl revise the class monitor: {\"error\":\"Denied\",\"rule\":\"default\"} 403" \
    env STORE=office.db "$monitor" "$desk" backup carl
stop_office
expect "an office that was killed" "2; CRITICAL: the office doesn't answer: curl: (7) *" page
expect "the same without a caller" "2; CRITICAL: the office doesn't answer: curl: (7) *" alone
"$program" policy office.db "$top/examples/policy.toml" >/dev/null
serve 2024-03-02
other="the office serves the day 2024-03-02, and it is $today"
expect "a policy without the rule, on another day" \
    "2; CRITICAL: $other; $untried monitor revise the class monitor: *" page
# The same some minutes after midnight: a stand-in for `date` says so.
# shellcheck disable=SC2016 # for the inner shell
printf '#!/bin/sh\ncase $1 in\n-d) echo 2024-03-02 ;;\n+%%F) echo 2024-03-03 ;;\n*) exec /bin/date "$@" ;;\nesac\n' \
    >"$room/night/date"
chmod 755 "$room/night/date"
PATH=$room/night:$PATH expect "an office that is about to be started again" '0; OK: *' alone
stop_office

peer '503 {"error":"Store"}'
expect "an office that a fault has shut" '2; CRITICAL: the office answers {"error":"Store"} 503' page
no_peer
due="200 {\"day\":\"$today\",\"deposits\":[]}"
peer "$due" '503 {"error":"Memory"}'
expect "a change that memory is missing for" '2; CRITICAL: the office takes no change: {"error":"Memory"} 503' page
no_peer
peer "$due" '200 {"class":"monitor","years":1}'
expect "another answer to the change" '2; CRITICAL: the office takes no change: {"class":"monitor","years":1} 200' page
no_peer
peer '502 <html>\r\n\0<b>Bad\tGateway</b>\n\n</html>\n'
expect "an answer of several lines" '2; CRITICAL: the office answers <html> <b>Bad Gateway</b> </html> 502' page
no_peer
peer "200 $(printf '%9000s' x)"
expect "a long answer" '2; CRITICAL: the office answers *' page
[ "$(wc -c <"$room/out")" -lt 400 ] || fail "a long answer is told whole"
no_peer
peer
expect "an office that is silent" '2; CRITICAL: the office doesn'"'"'t answer: curl: (28) *' alone
no_peer

# ---- arguments

desk=http://127.0.0.1:1
refused "OFFICE and FOLDER are missing" "$monitor"
refused "FOLDER, the folder of copies, is missing" "$monitor" "$desk"
refused "there are more than three words" "$monitor" "$desk" backup monitor more
refused "OFFICE is no address: backup" "$monitor" backup "$desk"
refused "OFFICE is no address: --help" "$monitor" --help backup
refused "FOLDER is no folder: " "$monitor" "$desk" ''
refused "FOLDER is no folder: -x" "$monitor" "$desk" -x
refused "CALLER is no name: " "$monitor" "$desk" backup ''
refused "CALLER is no name: Anna" "$monitor" "$desk" backup Anna
refused "CALLER is no name: a b" "$monitor" "$desk" backup $'a\nb'
AGE=a refused "AGE and FREE are whole numbers, and this is none: a" "$monitor" "$desk" backup
FREE=08 refused "AGE and FREE are whole numbers, and this is none: 08" "$monitor" "$desk" backup
echo "monitor: $cases cases, each named by the status and one line"
