#!/usr/bin/env bash
# Shows what commands say, and what they leave, where the system refuses them something. A folder or a file that the
# user may not write, a mount that can only be read, a second name of the office's file: `store Q4`, with the system's
# reason on the next line, and what was there is as it was. A limit on the length of files: the program is killed, and
# what was answered is there. As root, `setpriv` gives a user without rights. A mount needs root or a user namespace;
# without it the last line says that none was tried.
# Argument: the program; if left out, that of DEPOT, or the repository's own.
set -eu
top=$(readlink -f "$(dirname "$(readlink -f "$0")")/..")
. "$top/trials/needs.sh"
. "$top/trials/cases.sh"
. "$top/trials/processes.sh"
. "$top/trials/offices.sh"
needs unshare=util-linux setpriv=util-linux
needs_program "$@"
make_room
# (all of it open to the user without rights)
chmod 755 "$room"
policy=$room/policy.toml
install -m 755 "$program" "$room/depot"
install -m 644 "$top/examples/policy.toml" "$policy"
program=$room/depot
day=2024-03-01
bag=$top/examples/bag-a.bagset
deposits='/deposits?collection=maps&class=y1&closed=2024-02-29'

# Runs the program.
run() {
    timeout 60 "$program" "$@"
}

# Runs the program as a user without rights.
as_nobody() {
    if [ "$(id -u)" -eq 0 ]; then
        setpriv --reuid=65534 --regid=65534 --clear-groups timeout 60 "$program" "$@"
    else
        run "$@"
    fi
}

# Runs a command where the folder `mounted` can only be read.
where_it_is_read() {
    # shellcheck disable=SC2016 # for the inner shell
    apart --mount sh -c '
        mount --bind "$0" "$0" && mount -o remount,bind,ro "$0" && exec "$@"' "$room/mounted" "$@"
}

# Runs the program there.
on_a_mount() {
    where_it_is_read timeout 60 "$program" "$@"
}

# Runs the program under a limit on the size of files, in KiB. It leaves no core.
limited() {
    local size=$1
    shift
    (
        ulimit -c 0
        ulimit -f "$size"
        exec "$program" "$@"
    )
}

# What is done, the file that can't be opened, the reason, and the command: it prints nothing and ends with 3, and
# standard error has `store Q4` and one line that names both.
refused() {
    local what=$1 file=$2 reason=$3 status=0 told
    shift 3
    "$@" <"$room/request" >"$room/out" 2>"$room/err" || status=$?
    told=$(printf 'store Q4\ndepot: cannot open %s: %s\n.' "$file" "$reason")
    if [ -s "$room/out" ] || [ "$status" -ne 3 ] || [ "$(cat "$room/err" && echo .)" != "$told" ]; then
        fail "$what: '${told%.}' and 3 are wanted, and this came: '$(cat "$room/out" "$room/err")' and $status"
    fi
    cases=$((cases + 1))
}

# What is done, the status that is wanted, and the command.
ends() {
    local what=$1 wanted=$2 status=0
    shift 2
    "$@" <"$room/records" >"$room/out" 2>"$room/err" || status=$?
    if [ "$status" -ne "$wanted" ]; then
        fail "$what: the status $wanted is wanted, and this came: '$(cat "$room/out" "$room/err")' and $status"
    fi
    cases=$((cases + 1))
}

# The names in a folder, in a line.
names() {
    find "$1" -mindepth 1 -maxdepth 1 -printf '%f\n' | LC_ALL=C sort | paste -sd' '
}

# The office of a file answers.
answers() {
    compare "$1 is asked" 'HTTP/1.1 200 OK' "$(run ask "$1" "$day" <"$room/request" | head -n 1 | tr -d '\r')"
}

# An office in a folder of its own.
made() {
    mkdir "$room/$1"
    run policy "$room/$1/office.db" "$policy" >"$room/out"
}

request PUT /collections/maps >"$room/request"
: >"$room/records"

# No rights: on a folder where an office is to be made, and on an office's file.
mkdir "$room/closed"
chmod 555 "$room/closed"
refused "an office is made where the user may not write" "$room/closed/new.db" 'Permission denied (os error 13)' \
    as_nobody policy "$room/closed/new.db" "$policy"
refused "a replay makes one there" "$room/closed/new.db" 'Permission denied (os error 13)' \
    as_nobody replay --policy "$policy" "$room/closed/new.db"
compare "nothing was made" '' "$(names "$room/closed")"
refused "an office is made where no folder is" "$room/none/new.db" 'No such file or directory (os error 2)' \
    run policy "$room/none/new.db" "$policy"
made others
chmod 444 "$room/others/office.db"
cp "$room/others/office.db" "$room/before"
refused "an office is asked that the user may not write" "$room/others/office.db" 'Permission denied (os error 13)' \
    as_nobody ask "$room/others/office.db" "$day"
cmp "$room/before" "$room/others/office.db"
chmod 644 "$room/others/office.db"
answers "$room/others/office.db"

# A mount that can only be read.
made mounted
if where_it_is_read true 2>"$room/err"; then
    refused "an office is made on a mount that is only read" "$room/mounted/new.db" \
        'Read-only file system (os error 30)' on_a_mount policy "$room/mounted/new.db" "$policy"
    refused "an office is asked there" "$room/mounted/office.db" 'Read-only file system (os error 30)' \
        on_a_mount ask "$room/mounted/office.db" "$day"
    mounts=
else
    mounts=", and no mount was tried, since this machine gives none: $(head -n 1 "$room/err")"
fi

# A second name of the office's file.
made linked
ln "$room/linked/office.db" "$room/linked/second.db"
refused "an office has a second name" "$room/linked/office.db" 'unable to open database file' \
    run ask "$room/linked/office.db" "$day"
refused "it is asked by that name" "$room/linked/second.db" 'unable to open database file' \
    run ask "$room/linked/second.db" "$day"
rm "$room/linked/second.db"
answers "$room/linked/office.db"

# A limit on the size of files kills the program: a `pack` leaves the file that it was writing, and the next one
# takes another name; an office has what was answered.
head -c 400000 /dev/zero | make_bag "$room/packed/bag"
ends "a pack goes past the limit" 153 limited 8 pack "$room/packed/bag" "$room/packed/form"
compare "it leaves its half file" '.depot-pack-0 bag' "$(names "$room/packed")"
ends "the next pack" 0 run pack "$room/packed/bag" "$room/packed/form"
compare "it leaves the file of the other" '.depot-pack-0 bag form' "$(names "$room/packed")"
made limited
store=$room/limited/office.db
printf '{"years":1}' >"$room/years"
{
    request PUT /collections/maps | record
    request PUT /classes/y1 "$room/years" | record
    request POST "$deposits&accession=A-1" "$bag" | record
    request POST "$deposits&accession=A-2" "$room/packed/form" | record
} >"$room/records"
ends "a replay whose last deposit goes past the limit" 153 limited 300 replay "$store"
compare "it answers those before it" '200 200 201' \
    "$(sed -n 's/^HTTP.1.1 \([0-9]*\).*/\1/p' "$room/out" | paste -sd' ')"
request GET /deposits >"$room/list"
compare "they are there, and it isn't" '{"deposits":[1]}' \
    "$(run ask "$store" "$day" <"$room/list" | tail -n 1 | numbers)"
echo "system: $cases cases of what the system refuses: each is named, and leaves what was there$mounts"
