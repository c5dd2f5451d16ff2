#!/usr/bin/env bash
# `systemd-analyze verify` reads each unit of `examples/systemd`, as it would be installed, and finds the man page that
# the unit names; `systemd-analyze security` says how far each is confined. Then the scripts that the units run: `serve`
# with each kind of day, `backup`, `restore` and `audit`, with invalid arguments, and killed at each of their steps.
# `trials/booted.sh` runs the units themselves. As root it also restores into a folder of another user.
# Argument: the program; if left out, that of DEPOT, or the repository's own.
set -eu
shopt -s extglob
top=$(readlink -f "$(dirname "$(readlink -f "$0")")/..")
. "$top/trials/needs.sh"
. "$top/trials/cases.sh"
. "$top/trials/processes.sh"
. "$top/trials/offices.sh"
needs systemd-analyze=systemd man=man-db sqlite3 curl rsync
needs_program "$@"
make_room
units=$top/examples/systemd

# ---- the units

# The machine's files, with the units and what they run.
root=$room/root
mkdir -p "$root/etc/systemd/system" "$root/usr/local/bin" "$root/usr/local/lib/depot" "$root/bin" "$root/usr/bin" \
    "$root/usr/lib/systemd"
cp "$units"/*.service "$units"/*.timer "$root/etc/systemd/system/"
for each in depot@ depot-; do
    install -D -m 644 -t "$root/etc/systemd/system/$each.service.d" "$units/sandbox.conf"
done
install -m 755 "$program" "$root/usr/local/bin/depot"
find "$units" "$top/examples/monitor" -type f -executable -exec install -m 755 -t "$root/usr/local/lib/depot" {} +
for it in bin/sh bin/true bin/mkdir bin/rm usr/bin/systemctl; do
    printf '#!\n' >"$root/$it"
    chmod 755 "$root/$it"
done
cp -r /usr/lib/systemd/system "$root/usr/lib/systemd/"
# The man page that they name, where `./depot install /usr/local` puts it. (A colon at the end: the machine's pages
# too.)
install -D -m 644 "$top/docs/depot.1" "$root/usr/local/share/man/man1/depot.1"
verified=0
for unit in "$root"/etc/systemd/system/*.service "$root"/etc/systemd/system/*.timer; do
    # Each is a template, here that of the office `office`.
    unit=$(basename "$unit")
    said=$(MANPATH=$root/usr/local/share/man: systemd-analyze verify --man=yes --recursive-errors=no \
        --root="$root" "${unit/@/@office}" 2>&1) || true
    matches "$unit" '' "$said"
    [[ $unit == *@.* ]] || fail "$unit isn't a template"
    verified=$((verified + 1))
    [[ $unit == *.service ]] || continue
    # (from 0.0, confined, to 10.0)
    systemd-analyze security --no-pager --offline=true --threshold=20 --root="$root" "${unit/@/@office}" \
        >"$room/security" 2>&1 || fail "$unit: $(tail -n 3 "$room/security")"
    cases=$((cases + 1))
done
# Control: without the sandbox none of them is confined.
rm "$root"/etc/systemd/system/*.d/sandbox.conf
for unit in "$root"/etc/systemd/system/*.service; do
    unit=$(basename "$unit")
    if systemd-analyze security --no-pager --offline=true --threshold=20 --root="$root" "${unit/@/@office}" \
        >"$room/security" 2>&1; then
        fail "control: $unit is confined without its sandbox"
    fi
    cases=$((cases + 1))
done

# ---- what runs the scripts

# Stand-ins on the PATH: `date` gives the day of a file, and the tools that change files count their calls, and kill the
# script at one of them: before it, after it, or in the middle of a copy.
steps=$room/steps
mkdir "$steps"
cat >"$steps/date" <<'END'
#!/bin/sh
if [ "$*" = +%F ] && [ -n "${DAY-}" ]; then
    echo >>"$STEPS/days"
    echo "$DAY"
else
    exec /usr/bin/date "$@"
fi
END
for tool in cp mv rm sync mkdir chmod chown; do
    cat >"$steps/$tool" <<'END'
#!/bin/bash
echo "${0##*/} $*" >>"$STEPS/log"
if [ "$(wc -l <"$STEPS/log")" = "${KILL_AT-}" ]; then
    from=${*: -2:1} to=${*: -1}
    case ${0##*/}-$KILL_WHEN in
    cp-half) head -c $(($(stat -c %s "$from") / 2)) "$from" >"$to" ;;
    *-after) "/usr/bin/${0##*/}" "$@" ;;
    esac
    kill -KILL $PPID
    exit
fi
exec "/usr/bin/${0##*/}" "$@"
END
done
chmod 755 "$steps"/*
export STEPS=$steps

# Calls a script, and sets `status`, `said` (what it printed) and `told` (its standard error).
calls() {
    : >"$steps/log"
    : >"$steps/days"
    status=0
    { PATH=$steps:$PATH "$units/$1" "${@:2}" >"$room/said" 2>"$room/told"; } 2>/dev/null || status=$?
    said=$(cat "$room/said")
    told=$(cat "$room/told")
}
# Invalid arguments: one line, status 2, and nothing is changed.
refuses() {
    local before after
    before=$(find . -printf '%p %s %T@\n' | sort)
    calls "$@"
    after=$(find . -printf '%p %s %T@\n' | sort)
    matches "$*" "2 0 1" "$status $(echo -n "$said" | wc -c) $(echo "$told" | wc -l)"
    matches "$*: what is there" "$before" "$after"
}
# Calls a script once for each of its steps and each way to end it there, each time after `prepare` in a new folder;
# `looks` at what is there then, and after the same call again.
killed_everywhere() {
    local count when at
    prepare
    calls "$@"
    matches "$*" 0 "$status"
    count=$(wc -l <"$steps/log")
    [ "$count" -gt 2 ]
    for when in before half after; do
        for ((at = 1; at <= count; at++)); do
            prepare
            KILL_AT=$at KILL_WHEN=$when calls "$@"
            matches "$*, killed $when step $at" 137 "$status"
            looks "$*, killed $when step $at"
            calls "$@"
            matches "$* again, once it was killed $when step $at" 0 "$status"
            looks_again "$* again, once it was killed $when step $at"
        done
    done
}

# ---- serve

mkdir "$room/serve"
cd "$room/serve"
# In place of the program: what it is called with, and what is recorded by then.
cat >"$room/program" <<'END'
#!/bin/sh
echo "$* recorded $(cat office.day)"
END
chmod 755 "$room/program"
export DEPOT=$room/program
echo store >office.db
for words in '' office.db 'office 8080' '.db 8080' 'office.db x' 'office.db 123456' 'office.db 8080 more' \
    'office.db -1'; do
    # shellcheck disable=SC2086 # these are words
    DAY=2024-03-01 refuses serve $words
done
DAY=2024-03-01 calls serve none.db 8080
matches "no store" "3 there is no office none.db" "$status $told$(find . -type f ! -name office.db)"
# Each day after one that was served before, and whether it is served.
serves() {
    rm -f office.day
    [ "$1" = none ] || echo "$1" >office.day
    DAY=$2 calls serve office.db 8080
    matches "the day $2 after $1" "0 serve --port 8080 --count 1000000 office.db $2 recorded $2" "$status $said$told"
    matches "what is recorded, and left" "$2 office.day office.db" "$(cat office.day) $(echo *)"
    matches "the clock was asked" 1 "$(wc -l <"$steps/days")"
}
doesnt_serve() {
    printf '%s' "$1" >office.day
    cp office.day "$room/day"
    DAY=$2 calls serve office.db 8080
    matches "the day $2 after $1" \
        "4 the day is $2, $3; if it is right, call: echo $2 >$PWD/office.confirm, as the office's user" \
        "$status $said$told"
    cmp office.day "$room/day"
    matches "what is left" "office.day office.db" "$(echo *)"
}
while read -r before day verdict; do
    case $verdict in
    served) serves "$before" "$day" ;;
    earlier) doesnt_serve "$before" "$day" "before the day last served, $before" ;;
    later) doesnt_serve "$before" "$day" "more than seven days after the day last served, $before" ;;
    esac
done <<'END'
none 2024-02-29 served
2024-03-01 2024-03-01 served
2024-03-01 2024-03-02 served
2024-03-01 2024-03-08 served
2024-03-01 2024-03-09 later
2024-03-01 2024-02-29 earlier
2024-03-01 2023-12-31 earlier
2024-02-22 2024-02-29 served
2024-02-22 2024-03-01 later
2024-02-29 2024-03-07 served
2024-02-29 2024-03-08 later
2023-02-22 2023-03-01 served
2023-02-22 2023-03-02 later
2023-12-31 2024-01-07 served
2023-12-31 2024-01-08 later
2024-12-31 2025-01-01 served
2025-01-01 2024-12-31 earlier
2024-03-01 2124-03-01 later
END
for malformed in '' x 2024-02-30 2023-02-29 2024-2-3 '2024-03-01 ' '0000-01-01' \
    "$(printf '2024-03-01\n2024-03-01')" '1 Jan 2024'; do
    doesnt_serve "$malformed" 2024-03-02 "and the day last served isn't known: office.day is malformed"
done
echo 2024-03-02 >office.confirm
DAY=2024-03-02 calls serve office.db 8080
matches "a malformed one, confirmed" "0 serve * recorded 2024-03-02; office.day office.db" \
    "$status $said$told; $(echo *)"
# Confirmations.
for other in 2024-01-01 2024-01-03 '' x '2024-01-02 ' "$(printf '2024-01-02\n2024-01-02')"; do
    printf '%s' "$other" >office.confirm
    DAY=2024-01-02 calls serve office.db 8080
    matches "confirmed: '$other'" "4 office.confirm doesn't count: it names *, and the day is 2024-01-02
the day is 2024-01-02, before the day last served, 2024-03-02; *" "$status $told"
    matches "it stays, and the day too" "$other 2024-03-02" "$(cat office.confirm) $(cat office.day)"
done
echo 2024-01-02 >office.confirm
DAY=2024-01-02 calls serve office.db 8080
matches "confirmed" "0 serve * recorded 2024-01-02; office.day office.db" "$status $said$told; $(echo *)"
# A clock that gives no day.
DAY=today calls serve office.db 8080
matches "no day" "3 the clock gives no day: today" "$status $said$told"
# What is made before, and how often it listens.
DAY=2024-01-02 COUNT=5 CLOSED=$room/closed calls serve office.db 80
matches "other settings" "0 serve --port 80 --count 5 office.db 2024-01-02 recorded 2024-01-02" "$status $said$told"
[ -f "$room/closed" ]
# The new day is on the disk, and then its name, before anything is served.
DAY=2024-01-03 calls serve office.db 8080
matches "the steps" "rm -f office.day.part,sync office.day.part,mv office.day.part office.day,sync office.day ." \
    "$(paste -sd, "$steps/log")"
# Where one of them fails, nothing is served.
for tool in sync mv; do
    mv "$steps/$tool" "$room/kept"
    printf '#!/bin/sh\necho %s: no >&2\nexit 1\n' "$tool" >"$steps/$tool"
    chmod 755 "$steps/$tool"
    DAY=2024-01-04 calls serve office.db 8080
    matches "$tool fails" "3 $tool: no
the day 2024-01-04 can't be recorded in office.day, and isn't served" "$status $said$told"
    matches "what is left" "office.day office.db" "$(echo *)"
    mv "$room/kept" "$steps/$tool"
done
# Killed anywhere: the day is the one before or the new one, and a confirmation goes only once it is recorded.
prepare() {
    rm -f office.*
    echo store >office.db
    echo 2024-03-02 >office.day
    echo 2024-01-02 >office.confirm
}
looks() {
    matches "$1: the day" "2024-0[31]-02" "$(cat office.day)"
    [ -e office.confirm ] || matches "$1: it is recorded" 2024-01-02 "$(cat office.day)"
}
looks_again() {
    matches "$1" "serve * recorded 2024-01-02" "$said"
    matches "$1: what is left" "office.day office.db" "$(echo *)"
}
export DAY=2024-01-02
killed_everywhere serve office.db 8080
# Control: without the comparison each of them is served.
sed 's/ refuse 4 .*/ :/' "$units/serve" >"$room/control"
chmod 755 "$room/control"
for day in 2020-01-01 2031-01-01; do
    DAY=$day matches "control: without the comparison" "* recorded $day" \
        "$(DAY=$day PATH=$steps:$PATH "$room/control" office.db 8080)"
    echo 2024-01-02 >office.day
done
unset DAY

# ---- a backup

mkdir "$room/office"
cd "$room/office"
export DEPOT=$program
"$program" policy office.db "$top/examples/policy.toml" >/dev/null
# Each serves until it is killed.
begin() {
    serve_office office.db 2024-03-01
}
asks() {
    anna --fail -o /dev/null "$@"
}
begin
asks -X PUT -d '{"years":1}' "$address/classes/y1"
asks -X PUT "$address/collections/maps"
for n in 1 2 3; do deposit "$n"; done
kill_office
echo 2024-03-01 >office.day
# The deposits of a store and its log, or of a copy, looked at elsewhere.
deposits_of() {
    rm -rf "$room/look"
    mkdir "$room/look"
    cp "$1" "$room/look/office.db"
    [ ! -e "$1-wal" ] || cp "$1-wal" "$room/look/office.db-wal"
    request GET /deposits | "$program" ask "$room/look/office.db" 2024-03-01 | count_listed
}
cp -r . "$room/before"
for words in '' office.db 'office backup' 'office.db backup more' '.db backup' 'none.db backup'; do
    # shellcheck disable=SC2086 # these are words
    refuses backup $words
done
calls backup office.db ../backup
first=../first/$(basename "$said")
matches "a backup" "0 ../backup/20[0-9][0-9]-[0-9][0-9]-[0-9][0-9]-[0-9][0-9][0-9][0-9][0-9][0-9].db" \
    "$status $said$told"
matches "its name is the moment in UTC" yes \
    "$(find "$said" -newermt \
        "$(basename "${said%.db}" | sed 's/-\(..\)\(..\)\(..\)$/ \1:\2:\3 UTC/') -1 second" | grep -q . && echo yes)"
cp -r ../backup ../first
matches "its deposits" 3 "$(deposits_of "$first")"
matches "its day" 2024-03-01 "$(cat "${first%.db}.day")"
# Nothing is overwritten, not by one that has the same moment either.
TZ=Pacific/Kiritimati calls backup office.db ../backup
matches "a second" "0 ../backup/*.db 2" "$status $said$told $(find ../backup -name '*.db' | wc -l)"
matches "its place" "$said" "$(find ../backup -name '*.db' | sort | tail -n 1)"
cmp "$first" "../backup/$(basename "$first")"
# The logs of a proxy.
mkdir ../logs
echo one >../logs/access.log
LOGS=../logs calls backup office.db ../backup
matches "logs" "0 one" "$status $(cat ../backup/logs/access.log)"
mv ../logs/access.log ../logs/access.log.1
echo two >../logs/access.log
LOGS=../logs calls backup office.db ../backup
matches "logs once they are turned" "0 two one" \
    "$status $(cat ../backup/logs/access.log) $(cat ../backup/logs/access.log.1)"
LOGS=../none calls backup office.db ../backup
matches "no logs" "1 ../backup/*.db *../none*" "$status $said $(echo "$told" | paste -sd' ')"
# A machine without rsync: the backup is made, and what is missing is named.
mkdir ../tools
for tool in bash env flock date mkdir rm cp sync mv sleep; do
    ln -s "$(command -v "$tool")" ../tools
done
status=0
said=$(LOGS=../logs PATH=$(readlink -f ../tools) "$units/backup" office.db ../backup 2>"$room/told") || status=$?
matches "no rsync" "1 ../backup/*.db backup: LOGS needs rsync" "$status $said $(cat "$room/told")"
prepare() {
    rm -rf ../backup ./*
    cp "$room"/before/* .
}
# (a copy is the file of the first backup, byte for byte)
looks() {
    local each
    for each in ../backup/*.db; do
        [ ! -e "$each" ] || matches "$1: the backup" "same 2024-03-01" \
            "$(cmp "$each" "$first" && echo same) $(cat "${each%.db}.day")"
    done
}
looks_again() {
    looks "$1"
    matches "$1: the file" same "$(cmp office.db "$first" && echo same)"
    [ -f "$said" ]
    matches "$1: what is left" "" "$(find ../backup -name '*.part')"
}
killed_everywhere backup office.db ../backup

# ---- a restore

rm -rf ../backup
calls backup office.db ../backup
copy=$said
echo 2024-03-02 >office.day
begin
deposit 4
kill_office
printf '' | "$program" ask office.db 2024-03-02 >/dev/null
begin
deposit 5
# A store of five deposits, the fifth in its log, and a copy of three.
calls restore "$copy" office.db
matches "a restore of an office that serves" "1 restore: process $office has office.db open: stop the office first" \
    "$status $said$told"
kill_office
matches "its deposits" "5 4" "$(deposits_of office.db) $(cp office.db ../alone.db && deposits_of ../alone.db)"
rm -rf "$room/before"
cp -r . "$room/before"
touch ../raw.db ../garbage.db
cp "$copy" ../raw.db
cp office.db-wal ../raw.db-wal
echo garbage >../garbage.db
ln -s office.db link.db
for words in '' "$copy" "$copy office" "$copy office.db more" "none.db office.db" "$copy none/office.db" \
    "office.db office.db" "../raw.db office.db" "../garbage.db office.db" ". office.db" "$copy .db" "$copy link.db"; do
    # shellcheck disable=SC2086 # these are words
    refuses restore $words
done
prepare() {
    rm -rf ./*
    cp "$room"/before/* .
}
# Which office a folder has: its file, its log and its day, of the old one or of the new one.
which() {
    local which=
    if cmp -s "$1/office.db" "$room/before/office.db"; then
        which=old
        cmp -s "$1/office.db-wal" "$room/before/office.db-wal" || which+=" without its log"
    elif cmp -s "$1/office.db" "$copy"; then
        which=new
        [ ! -e "$1/office.db-wal" ] || which+=" with a log"
    elif [ ! -e "$1/office.db" ]; then
        which=none
    fi
    echo "$which $(cat "$1/office.day" 2>/dev/null)"
}
# The old office whole, the new one, or none under the name.
looks() {
    matches "$1" "@(old 2024-03-02|new 2024-03-01|none *)" "$(which .)"
}
looks_again() {
    matches "$1: the new one" "new 2024-03-01" "$(which .)"
    # (once the new one was in its place already, the call again has replaced it)
    matches "$1: the old one" "*old 2024-03-02*" "$(for each in replaced-*; do which "$each"; done)"
    matches "$1: what is left" "" "$(find . -name '*.part' -o -name '*.restored')"
}
killed_everywhere restore "$copy" office.db
# No command opens a log alone.
prepare
rm office.db
status=0
"$program" ask office.db 2024-03-01 </dev/null >/dev/null 2>"$room/told" || status=$?
matches "a log alone" "3 store Q1 office.day office.db-wal" "$status $(head -n 1 "$room/told") $(echo *)"
# Without a log, without a store, and into a folder where nothing ever was.
for without in office.db-wal office.db 'office.db office.db-wal' 'office.db office.db-wal office.day'; do
    prepare
    # shellcheck disable=SC2086 # these are words
    rm $without
    calls restore "$copy" office.db
    matches "a restore without $without" "0 $copy is office.db now*" "$status $said$told"
    matches "the new one" "new 2024-03-01" "$(which .)"
done
matches "nothing was there" "office.day office.db" "$(echo *)"
# A copy that has no day leaves the one that is known.
prepare
cp "$copy" ../dayless.db
calls restore ../dayless.db office.db
matches "a copy without a day" "0 new 2024-03-02" "$status $(which .)"
# By root in the folder of another user: it goes on as that user, so a link there leads root nowhere.
if [ "$(id -u)" -eq 0 ]; then
    prepare
    open=$(mktemp -d)
    chmod 711 "$open"
    install -m 755 "$units/restore" "$open/"
    install -m 644 "$copy" "$open/copy.db"
    install -m 644 "${copy%.db}.day" "$open/copy.day"
    mkdir -m 750 "$open/office"
    cp ./* "$open/office/"
    chown -R nobody:nogroup "$open/office"
    "$open/restore" "$open/copy.db" "$open/office/office.db" >"$room/said" 2>&1 || fail "$(cat "$room/said")"
    matches "whose it is" "600 nobody nogroup office.day,600 nobody nogroup office.db,700 nobody nogroup replaced-*" \
        "$(cd "$open/office" && stat -c '%a %U %G %n' office.day office.db replaced-* | paste -sd,)"
    install -m 600 /dev/null "$open/secret"
    echo secret >"$open/secret"
    mkdir -m 700 "$open/roots"
    rm "$open/copy.day"
    for link in "secret copy.day" "roots office/replaced-2024-03-03-000000.part"; do
        # shellcheck disable=SC2086 # these are words
        (cd "$open" && ln -s "$open/"$link)
        status=0
        "$open/restore" "$open/copy.db" "$open/office/office.db" >"$room/said" 2>&1 || status=$?
        matches "a link to what is root's: ${link#* }" "1 secret 0 2024-03-01" \
            "$status $(cat "$open/secret") $(find "$open/roots" -mindepth 1 | wc -l) $(cat "$open/office/office.day")"
        rm -f "$open/${link#* }"
    done
    # It says that the user can't read a copy, and root's own link to the folder is as the folder.
    ln -s office "$open/linked"
    chmod 600 "$open/copy.db"
    status=0
    "$open/restore" "$open/copy.db" "$open/office/office.db" >"$room/said" 2>&1 || status=$?
    matches "a copy that he can't read" \
        "1 restore: nobody, whose folder '$open/office' is, can't read '$open/copy.db'" \
        "$status $(cat "$room/said")"
    chmod 644 "$open/copy.db"
    "$open/restore" "$open/copy.db" "$open/linked/office.db" >"$room/said" 2>&1 || fail "$(cat "$room/said")"
    matches "by a link to the folder" "nobody 600" "$(stat -c '%U %a' "$open/office/office.db")"
    rm -rf "$open"
fi
# Control: the file before its log is what counts. The other way round, a kill leaves an older office under the name.
# shellcheck disable=SC2016 # the names are the script's
sed 's/^files=.*/files=("$name-wal" "$name")/' "$units/restore" >"$room/control"
chmod 755 "$room/control"
prepare
: >"$steps/log"
PATH=$steps:$PATH "$room/control" "$copy" office.db >/dev/null
at=$(grep -n 'mv .*-wal' "$steps/log" | cut -d : -f 1)
prepare
: >"$steps/log"
{ KILL_AT=$at KILL_WHEN=after PATH=$steps:$PATH "$room/control" "$copy" office.db >/dev/null 2>&1; } 2>/dev/null || true
matches "control: the log before its file" "old without its log 2024-03-02" "$(which .)"

# ---- an audit

for words in '' ../backup '../backup anna more' '../none anna' '../backup An/na'; do
    # shellcheck disable=SC2086 # these are words
    refuses audit $words
done
calls audit ../backup anna
matches "an audit" "0 3 of 3 deposits of $copy are valid" "$status $said$told"
mkdir ../empty
calls audit ../empty anna
matches "an audit of nothing" "1 no backup in ../empty" "$status $said$told"
# A caller whom the policy doesn't let list has audited nothing.
calls audit ../backup eve
matches "an audit by a stranger" "1 no deposit of $copy is listed for eve" "$status $said$told"
# Another byte in the content that the three share, in a backup made later.
prepare
calls backup office.db ../backup
sqlite3 "$said" "UPDATE content SET bytes = x'616264' WHERE bytes = x'616263'"
calls audit ../backup anna
matches "an audit of changed content" "1 5" "$status $(echo "$told" | grep -c '^deposit [1-5] .*B17')"
echo "units: $cases cases: $verified units, and the scripts serve, backup, restore and audit"
