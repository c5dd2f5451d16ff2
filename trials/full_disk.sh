#!/usr/bin/env bash
# Fills the disk of an office that serves: a file system with 6 MiB left, once in memory and, for root, once ext4 on a
# loop device. It shows what docs/OPERATING.md says under "A full disk". The deposit that has no room is answered 503,
# and what was answered before is there once there is room, by the page's commands. A backup and a `pack` that have no
# room leave nothing under their names. Standard error, a file on that disk, gets lines of the failures and of their
# end; where it has no room either, they are dropped, and the next ones come.
# Argument: the program; if left out, that of DEPOT, or the repository's own.
set -eu
top=$(readlink -f "$(dirname "$(readlink -f "$0")")/..")
. "$top/trials/needs.sh"
. "$top/trials/cases.sh"
. "$top/trials/processes.sh"
. "$top/trials/offices.sh"
. "$top/trials/pages.sh"
needs curl
needs_mounts
needs_program "$@"
PATH=$PATH:/usr/sbin:/sbin
# The rest goes on where this script has mounts of its own, on each kind of disk.
if [ -z "${DISK-}" ]; then
    if [ "$(id -u)" -ne 0 ]; then
        DISK=tmpfs apart --mount "$0" "$program"
        echo "full_disk: ext4 wasn't tried, since a loop device needs root" >&2
        exit
    fi
    needs mkfs.ext4=e2fsprogs
    for disk in tmpfs ext4; do
        DISK=$disk apart --mount "$0" "$program"
    done
    exit
fi
make_room
undo() {
    umount "$room/disk" "$room/other"
}
mkdir "$room/disk" "$room/other"
mount -t tmpfs -o size=1m backups "$room/other"
if [ "$DISK" = ext4 ]; then
    truncate -s 128M "$room/image"
    mkfs.ext4 -q -b 4096 -m 0 "$room/image"
    mount -o loop "$room/image" "$room/disk"
    mkdir "$room/disk/office"
    # A file takes up what the disk isn't to have.
    fallocate -l $(($(df --output=avail -B 1 "$room/disk" | tail -n 1) - 6 * 1048576)) "$room/disk/ballast"
else
    mount -t tmpfs -o size=6m office "$room/disk"
    mkdir "$room/disk/office"
fi
size=6

# Gives the disk this number of megabytes in all.
resize() {
    if [ "$DISK" = ext4 ]; then
        truncate -s "-$((($1 - size) * 1048576))" "$room/disk/ballast"
    else
        mount -o "remount,size=$1m" office "$room/disk"
    fi
    size=$1
}
day=2024-03-02

# The form of a bag of 700 kB, each with bytes of its own.
make_form() {
    head -c 700000 /dev/urandom | make_bag "$room/bag"
    rm -f "$room/form-$1"
    ./depot pack "$room/bag" "$room/form-$1" >said
}

# Asks the office, and counts it: the body and the status.
asks_as() {
    printf . >>"$room/asked"
    curl -sS --max-time 60 -H "Depot-Caller: $1" -w ' %{http_code}' "${@:2}"
}

asks() {
    asks_as anna "$@"
}

deposits() {
    asks --data-binary "@$room/form-$1" "$(place "A-$1")"
}

serve() {
    : >"$room/asked"
    serve_office office.db "$day" 2>>log || fail "the office doesn't serve: $(tail -n 1 log)"
}

# What standard error has got since the office was first served, in one line.
said() {
    tail -n +2 log | tr -d '\0' | paste -sd' '
}

# What was done, and what standard error has then. A line comes after its answer, within ten seconds here.
tells() {
    local end=$((SECONDS + 10))
    until [ "$(said)" = "$2" ] || [ "$SECONDS" -ge "$end" ]; do sleep 0.05; done
    matches "$1: standard error" "$2" "$(said)"
}

# The connection that was made last, as a line names it.
last() {
    echo "depot: connection $(wc -c <"$room/asked"):"
}

cd "$room/disk/office"
ln -s "$program" depot
# The page in which it begins is taken before the disk is full.
echo 'standard error:' >log
./depot policy office.db "$top/examples/policy.toml" >said
serve
asks -X PUT -d '{"years":1}' "$address/classes/y1" >said
asks -X PUT "$address/collections/maps" >said

# Deposits, until one has no room, and sets how many are kept.
kept=0
until_full() {
    local answer
    while [ "$kept" -lt 30 ]; do
        make_form $((kept + 1))
        answer=$(deposits $((kept + 1)))
        [ "$answer" = "{\"deposit\":$((kept + 1))} 201" ] || break
        kept=$((kept + 1))
    done
    matches "a deposit that has no room" '{"error":"Store"} 503' "$answer"
}

until_full
lines="$(last) a change was answered Store, 1 in a row"
tells "a deposit that has no room" "$lines"
# What is asked goes on; what changes something has no room either, until there is some. It needs no new start.
has_all() {
    local each
    matches "$1: the deposits" "$kept" "$(asks "$address/deposits" | count_listed)"
    for each in $(seq "$kept"); do
        asks "$address/deposits/$each/bag" -o "$room/bag-back" >/dev/null
        cmp "$room/bag-back" "$room/form-$each"
        cases=$((cases + 1))
    done
}
has_all "the disk is full"
matches "another change" '{"error":"Store"} 503' "$(asks -X PUT "$address/collections/tax")"
# A change that is denied, of which standard error has nothing; and more that fail, up to the tenth in a row.
matches "a denial" '{"error":"Denied","rule":"default"} 403' "$(asks_as bob -X PUT "$address/collections/tax")"
more_changes() {
    local each
    for each in $(seq "$1" 10); do
        matches "change $each in a row" '{"error":"Store"} 503' "$(asks -X PUT "$address/collections/tax")"
    done
}
more_changes 3
lines+=" $(last) a change was answered Store, 10 in a row"
tells "ten in a row" "$lines"
# There is room again: the megabytes that the disk has, and what is done.
more_room() {
    resize "$1"
    kept=$((kept + 1))
    matches "$2" "{\"deposit\":$kept} 201" "$(deposits "$kept")"
    lines+=" $(last) a change was accepted again, after 10 in a row, the last answered Store"
    tells "$2" "$lines"
}
more_room 9 "there is room again"
has_all "there is room again"

# Full again to the last byte, also of the page in which standard error ends: the line of the tenth failure is dropped.
fill() {
    until_full
    lines+=" $(last) a change was answered Store, 1 in a row"
    tells "full again" "$lines"
    dd if=/dev/zero of=filling bs=4096 2>/dev/null || true
    sync -f filling
    while head -c 4096 /dev/zero 2>/dev/null >>filling; do :; done
    truncate -s %4096 log
    more_changes 2
}
fill
rm filling
more_room 14 "there is room for standard error too"

# Full, and stopped meanwhile: each command says that the log can't be folded in, and the log has what was answered.
fill
stop_office
tells "no room for standard error" "$lines"
status=0
./depot ask office.db "$day" </dev/null >"$room/said" 2>"$room/told" || status=$?
matches "the log is to be folded in" '3; store Q4 depot: cannot close office.db: database or disk is full' \
    "$status; $(paste -sd' ' "$room/told")"
status=0
DEPOT=./depot "$top/examples/systemd/backup" office.db "$room/other" >"$room/said" 2>"$room/told" || status=$?
matches "a backup" '3; store Q4 depot: cannot close office.db: database or disk is full' \
    "$status; $(paste -sd' ' "$room/told")"
matches "it leaves" '' "$(ls -A "$room/other")"
status=0
./depot pack "$room/bag" form >"$room/said" 2>"$room/told" || status=$?
matches "a folder is packed" '3; device depot: cannot write form: No space left on device (os error 28)' \
    "$status; $(paste -sd' ' "$room/told")"
# A day that can't be recorded isn't served.
status=0
DEPOT=./depot timeout 60 "$top/examples/systemd/serve" office.db 8080 >"$room/said" 2>"$room/told" || status=$?
matches "a new day" "3; *the day $(date +%F) can't be recorded in office.day, and isn't served" \
    "$status; $(cat "$room/told")"
matches "it leaves" 'depot filling log office.db office.db-wal said' \
    "$(find . -mindepth 1 -printf '%P\n' | LC_ALL=C sort | paste -sd' ')"

# Room, and the page's commands. Where the disk of the backups is the full one, no backup has its name.
rm filling
resize 64
status=0
DEPOT=./depot "$top/examples/systemd/backup" office.db "$room/other" >"$room/said" 2>"$room/told" || status=$?
matches "a backup to a full disk" '1; *No space left on device' "$status; $(cat "$room/told")"
matches "it leaves" '' "$(ls -A "$room/other")"
follow "A full disk" 1 >"$room/said"
matches "the page's look" 'HTTP/1.1 200 OK' "$(head -n 1 "$room/said" | tr -d '\r')"
serve
has_all "after a new start"
stop_office
echo "full_disk: $cases cases on $DISK: what was answered is there, before there is room and after, and standard" \
    "error says so"
