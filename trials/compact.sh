#!/usr/bin/env bash
# Compacts offices by `examples/systemd/compact`: most of their deposits were destroyed, some contents are shared by
# kept and destroyed ones, and they have holds of each kind and rules with days. Some have tables of version 3 or 4.
# Before it the destroyed payloads are in the file, and after it in no file of the folder. The file is shorter, each
# answer to a run of requests is the same, and the office goes on in the same way. A wrong copy by `sqlite3` is refused,
# and so are an office that is open and too little room. Killed at each step of its end, and at other moments, it leaves
# a whole office, and the next call succeeds. Then its unit runs in a machine with a systemd: the office serves again,
# and one that was stopped stays stopped.
# Argument: the program; if left out, that of DEPOT, or the repository's own.
set -eu
top=$(readlink -f "$(dirname "$(readlink -f "$0")")/..")
. "$top/trials/needs.sh"
. "$top/trials/cases.sh"
. "$top/trials/processes.sh"
. "$top/trials/offices.sh"
. "$top/trials/pages.sh"
. "$top/trials/boots.sh"
needs sqlite3 curl python3 setsid=util-linux
needs_root "a small disk, and a machine that is booted"
needs_program "$@"
export DEPOT=$program
make_room
undo() {
    [ ! -d "$room/disk" ] || umount "$room/disk" 2>/dev/null
}
compact=$top/examples/systemd/compact
sessions=$top/trials/sessions.py
shopt -s extglob
section="Destroyed bytes"
# The newest version, and its tables of deposits and of holds.
tables=$(PYTHONPATH=$top/trials python3 -c 'from shared.stores import NEWEST, VERSION
print(VERSION, NEWEST["deposit"], NEWEST["hold"])')
read -r newest DEPOSITS HOLDS <<<"$tables"
export DEPOSITS HOLDS

# The files of a folder that a call may leave changed.
files() {
    (cd "$1" && find . -mindepth 1 -printf '%P\n' | sort | paste -sd ' ')
}

# ---- offices

# An office in a folder, as an older version left it: `make FOLDER VERSION DEPOSITS SEED`.
make() {
    mkdir -p "$1"
    python3 "$sessions" policy "$2" >"$room/policy.toml"
    "$program" policy "$1/office.db" "$room/policy.toml" >/dev/null
    python3 "$sessions" fill "$4" "$2" "$3" "$room/contents" | "$program" replay "$1/office.db" >/dev/null
    if [ "$2" -lt "$newest" ]; then
        compare "tables of version $2" "$2" "$(python3 "$top/trials/older.py" "$1/office.db" | cut -d ' ' -f 1)"
    fi
}

# The answers of a copy of an office to the records of a file: `answers FOLDER RECORDS`.
answers() {
    rm -rf "$room/asked"
    mkdir "$room/asked"
    cp "$1"/office.db* "$room/asked/" 2>/dev/null
    "$program" replay "$room/asked/office.db" <"$2" 2>"$room/why"
}

# A copy of an office, and a run of changes on it: the answers, and all rows in the end.
goes_on() {
    answers "$1" "$2"
    sqlite3 -readonly "file:$room/asked/office.db?immutable=1" .dump
}

# How many contents were destroyed, and how many of them are seen in these files.
traces() {
    local folder=$1 copy=$room/traced.db
    cp "$folder/office.db" "$copy"
    [ ! -e "$folder/office.db-wal" ] || cp "$folder/office.db-wal" "$copy-wal"
    "$program" ask "$copy" 2024-03-01 </dev/null >/dev/null
    find "$folder" -type f -print0 | xargs -0 python3 "$sessions" traces "$room/contents" "$copy"
    rm -f "$copy" "$copy-wal"
}

# Runs it, and gives its status and what it said.
run() {
    local status=0
    "$compact" "$@" >"$room/said" 2>"$room/told" || status=$?
    echo "$status; $(paste -sd ' ' "$room/said")$(paste -sd ' ' "$room/told")"
}

for version in $(seq "$newest" -1 3); do
    # (a name that has to be quoted in each of three ways)
    folder="$room/it's 50% of a?b#c $version"
    make "$folder" "$version" 60 "$version"
    python3 "$sessions" reads 60 40 >"$room/reads"
    python3 "$sessions" more "$version" "$version" 60 >"$room/more"
    chmod 640 "$folder/office.db"
    chown 4321:1234 "$folder/office.db"
    read -r gone seen <<<"$(traces "$folder")"
    if [ "$gone" -lt 50 ] || [ "$seen" -lt $((gone / 2)) ]; then
        fail "of $gone destroyed contents $seen are in the file: too few"
    fi
    answers "$folder" "$room/reads" >"$room/before"
    goes_on "$folder" "$room/more" >"$room/before-more"
    size=$(stat -c %s "$folder/office.db")
    said=$(run "$folder/office.db" anna)
    now=$(stat -c %s "$folder/office.db")
    kept=$(sqlite3 "file:$(sed 's/%/%25/; s/?/%3f/; s/#/%23/' <<<"$folder")/office.db?immutable=1" \
        "SELECT count(*) FROM $DEPOSITS WHERE gone IS NULL")
    # (a store of an older version has grown by its upgrade before it is made anew)
    compare "version $version: it says" \
        "0; $folder/office.db: N bytes before, $now bytes after; $kept deposits are audited as before" \
        "${said/: +([0-9]) bytes before/: N bytes before}"
    [ "$now" -lt $((size * 3 / 4)) ] || fail "the file had $size bytes, and has $now"
    compare "version $version: what the folder has" office.db "$(files "$folder")"
    compare "version $version: what is seen of destroyed contents" "$gone 0" "$(traces "$folder")"
    compare "version $version: mode and owner" "640 4321 1234" "$(stat -c '%a %u %g' "$folder/office.db")"
    answers "$folder" "$room/reads" >"$room/after"
    cmp "$room/before" "$room/after"
    goes_on "$folder" "$room/more" >"$room/after-more"
    cmp "$room/before-more" "$room/after-more"
    sqlite3 "file:$room/asked/office.db?immutable=1" .schema | cmp - "$top/trials/schema.sql"
    python3 "$top/trials/kept.py" "$folder/office.db" "$room/asked/office.db" >/dev/null
    cases=$((cases + 4 + $(grep -ac '^ANS ' "$room/before-more") + $(grep -ac '^ANS ' "$room/before")))
done
compare "a second call" \
    "0; $folder/office.db: $now bytes before, $now bytes after; $kept deposits are audited as before" \
    "$(run "$folder/office.db" anna)"
answers "$folder" "$room/reads" | cmp - "$room/before"

# ---- what is refused, and leaves the office as it was

rm -rf "$room/it's"*
make "$room/large" "$newest" 60 5
make "$room/first" "$newest" 14 14
python3 "$sessions" reads 14 12 >"$room/reads"
answers "$room/first" "$room/reads" >"$room/before"
store=$room/office/office.db
export OFFICE=$store
fresh() {
    rm -rf "$room/office"
    cp -a "$room/first" "$room/office"
}
# The folder has one whole office, and nothing else but its log and the folder of a killed call.
is_whole() {
    answers "$room/office" "$room/reads" | cmp - "$room/before" || fail "$1: the office has other answers"
    cases=$((cases + 1))
}
# What came of a call is this, and the file is as it was.
refused() {
    compare "$1" "$2" "$3"
    cmp "$room/first/office.db" "$store"
    compare "$1: what the folder has" office.db "$(files "$room/office" | sed 's/ office.db-wal$//')"
    is_whole "$1"
}
fresh
rm -f "$room/first/office.db-wal" "$store-wal"
refused "no arguments" "2; compact: the arguments are STORE CALLER" "$(run)"
refused "one argument" "2; compact: the arguments are STORE CALLER" "$(run "$store")"
refused "three arguments" "2; compact: the arguments are STORE CALLER" "$(run "$store" anna anna)"
refused "no file" "2; compact: there is no file '$room/none'" "$(run "$room/none" anna)"
refused "a folder" "2; compact: there is no file '$room/office'" "$(run "$room/office" anna)"
refused "no caller" "2; compact: 'An na' isn't the name of a caller" "$(run "$store" 'An na')"
refused "no program" "3; compact: there is no program $room/none" "$(DEPOT=$room/none run "$store" anna)"
refused "a caller who may not audit" "1; compact: 0 of N deposits could be audited as carl; the old file stays" \
    "$(run "$store" carl | sed 's/of [0-9]* dep/of N dep/')"
echo text >"$room/office/text"
compare "no office" "3; store Q4 depot: cannot open $room/office/text: file is not a database that obeys its schema" \
    "$(run "$room/office/text" anna)"
compare "no office: what the folder has" "office.db text" \
    "$(files "$room/office" | sed 's/ office.db-wal//; s/ text-wal//')"
fresh

# The page's command.
mkdir "$room/page"
cp "$store" "$room/page/"
ln -s "$program" "$room/page/depot"
ln -s "$top/examples" "$room/page/examples"
compare "the page's command" 1 \
    "$(cd "$room/page" && follow "$section" 1 | grep -c ' bytes before, .* audited as before$')"

# An office that is open.
serve_office "$store" 2024-03-01
compare "it serves" "3; compact: the office isn't stopped: process $office has $store open" "$(run "$store" anna)"
compare "it still serves" '{"day":"2024-03-01","deposits":[]}' "$(curl -sS "$address/due")"
stop_office
mkfifo "$room/input"
sqlite3 "$store" <"$room/input" >"$room/opened" &
idle=$!
exec 7>"$room/input"
echo "SELECT 'opened', count(*) FROM office;" >&7
await "$idle" "$room/opened" opened
compare "sqlite3 has it open" "3; compact: the office isn't stopped: process $idle has $store open" \
    "$(run "$store" anna)"
exec 7>&-
ended "$idle"
fresh
flock "$room/office" sleep 14 7>&- &
compare "another call" "3; compact: another call is at work in $room/office" "$(run "$store" anna)"
wait "$!"
refused "after another call" "" ""

# A disk that is too small: it says how much it needs, and a little more is enough.
mkdir "$room/disk"
mount -t tmpfs -o size=$((5 * $(stat -c %s "$room/large/office.db") / 4096))k disk "$room/disk"
cp "$room/large/office.db" "$room/disk/"
said=$(run "$room/disk/office.db" anna)
compare "too little room" "3; compact: N bytes are needed on the disk of $room/disk, and N are free" \
    "$(sed -E 's/: [0-9]+ bytes/: N bytes/; s/and [0-9]+ are/and N are/' <<<"$said")"
cmp "$room/large/office.db" "$room/disk/office.db"
compare "too little room: what the folder has" office.db "$(files "$room/disk" | sed 's/ office.db-wal$//')"
need=$(grep -o '[0-9]* bytes are needed' <<<"$said" | cut -d ' ' -f 1)
mount -o "remount,size=$((($(stat -c %s "$room/large/office.db") + need) / 1024 + 32))k" "$room/disk"
compare "as much room as it says" "0" "$(run "$room/disk/office.db" anna | cut -d ';' -f 1)"
umount "$room/disk"
rmdir "$room/disk"

# ---- a wrong copy

# A `sqlite3` that isn't to be trusted: it runs the real one, and then changes the new file.
mkdir "$room/stand"
REAL=$(command -v sqlite3)
export REAL
cat >"$room/stand/sqlite3" <<'END'
#!/usr/bin/env bash
# A change of a table that isn't STRICT for that time.
loose() {
    "$REAL" new.db "PRAGMA writable_schema = ON;
        UPDATE sqlite_schema SET sql = replace(sql, ' STRICT', '') WHERE name = '$1'"
    "$REAL" new.db "$2"
    "$REAL" new.db "PRAGMA writable_schema = ON; UPDATE sqlite_schema SET sql = sql || ' STRICT' WHERE name = '$1'"
}
case $WRONG:$* in
order:*"new.db") exec "$REAL" new.db 'PRAGMA journal_mode = WAL' ;;
audits:*"file:new.db"*) exec "$REAL" "${@:1:5}" "file:$OFFICE?immutable=1" "${@:7}" ;;
fails:*"VACUUM INTO"*) echo "Error: database or disk is full" >&2; exit 1 ;;
esac
"$REAL" "$@" || exit
[[ $* = *"VACUUM INTO"* ]] || exit 0
case $WRONG in
row) "$REAL" new.db "DELETE FROM caller WHERE rowid = (SELECT max(rowid) FROM caller)" ;;
more) "$REAL" new.db "INSERT INTO collection VALUES ('more')" ;;
rowid) "$REAL" new.db "UPDATE collection SET rowid = rowid + 1 WHERE rowid = (SELECT max(rowid) FROM collection)" ;;
key) "$REAL" new.db "UPDATE $HOLDS SET number = 1000 WHERE number = (SELECT max(number) FROM $HOLDS)" ;;
value) "$REAL" new.db "UPDATE $HOLDS SET matter = matter || ' ' WHERE number = 1" ;;
null)
    "$REAL" new.db "UPDATE $DEPOSITS SET gone = 0 WHERE number =
        (SELECT max(number) FROM $DEPOSITS WHERE gone IS NULL)"
    ;;
content | audits)
    "$REAL" new.db "UPDATE content SET bytes = CAST(substr(bytes, 1, size - 1) || 'x' AS BLOB) WHERE size > 100"
    ;;
text) loose "$DEPOSITS" "UPDATE $DEPOSITS SET accession = CAST(accession AS BLOB) WHERE number = 1" ;;
number) loose office "UPDATE office SET max_holds = CAST('1000000' AS BLOB)" ;;
sql)
    loose class "SELECT 1"
    "$REAL" new.db "PRAGMA writable_schema = ON;
        UPDATE sqlite_schema SET sql = replace(sql, 'years INTEGER', 'years  INTEGER') WHERE name = 'class'"
    ;;
index)
    "$REAL" new.db "PRAGMA writable_schema = ON; UPDATE sqlite_schema SET rootpage =
        (SELECT rootpage FROM sqlite_schema WHERE name = '${DEPOSITS}_due') WHERE name = 'content_mark'"
    ;;
user) "$REAL" new.db "PRAGMA user_version = 7" ;;
page) rm new.db; { echo "PRAGMA page_size = 8192;"; "$REAL" "file:$OFFICE?immutable=1" .dump; } | "$REAL" new.db ;;
esac
END
chmod +x "$room/stand/sqlite3"
fresh
rm -f "$store-wal"
while read -r wrong has; do
    refused "a wrong copy: $wrong" "1; compact: the new file has $has; the old one stays" \
        "$(WRONG=$wrong PATH=$room/stand:$PATH run "$store" anna | sed 's/a fault: .*; the/a fault; the/')"
done <<END
row other rows in the table caller
more other rows in the table collection
rowid other rows in the table collection
key other rows in the table $HOLDS
value other rows in the table $HOLDS
null other rows in the table $DEPOSITS
content other rows in the table content
text other rows in the table $DEPOSITS
number other rows in the table office
order another schema
sql another schema
index a fault
user another header
page another header
END
said=$(WRONG=audits PATH=$room/stand:$PATH run "$store" anna)
refused "a wrong copy of which sqlite3 says that it is right" \
    "1; compact: the new file gives other answers; the old one stays" "$said"
refused "sqlite3 fails" "3; Error: database or disk is full" "$(WRONG=fails PATH=$room/stand:$PATH run "$store" anna)"
compare "sqlite3 as it is" 0 "$(WRONG=none PATH=$room/stand:$PATH run "$store" anna | cut -d ';' -f 1)"

# ---- while it is at work, and when it is stopped

# Stand-ins for the programs that it calls one after the other: they count the calls, and at the call of the number N do
# what AT says: end the process group before or after it, end the script alone (the call goes on without it), or tell
# the script to end; or, before each call of one program, ask the office, or end the process that has it open.
mkdir "$room/step"
cat >"$room/step/mv" <<'END'
#!/usr/bin/env bash
n=$(($(cat "$COUNT") + 1))
echo "$n" >"$COUNT"
PATH=${PATH#*:}
read -r _ _ _ _ group _ </proc/$$/stat
case $AT in
"$n before") kill -KILL 0 ;;
"$n alone") kill -KILL "$group" ;;
"$n told") kill -TERM "$group" ;;
"asked ${0##*/}")
    status=0
    "$DEPOT" ask "$OFFICE" 2024-03-01 </dev/null >"$COUNT.said" 2>&1 || status=$?
    echo "$status; $(paste -sd ' ' "$COUNT.said")" >>"$COUNT.asked"
    ;;
"held ${0##*/}")
    for each in /proc/[0-9]*/fd/*; do
        [ ! "$each" -ef "$OFFICE" ] || kill -KILL "$(cut -d / -f 3 <<<"$each")"
    done
    sleep 0.2
    ;;
esac
status=0
"${0##*/}" "$@" || status=$?
[ "$AT" != "$n after" ] || kill -KILL 0
exit "$status"
END
chmod +x "$room/step/mv"
for each in mkdir stat cp cmp rm chown chmod sync; do
    ln -s mv "$room/step/$each"
done
export COUNT=$room/count
steps() {
    echo 0 >"$COUNT"
    AT=$1 PATH=$room/step:$PATH run "$store" anna
}
fresh
began=$(date +%s%3N)
compare "in steps" 0 "$(steps none | cut -d ';' -f 1)"
took=$(($(date +%s%3N) - began))
count=$(cat "$COUNT")

# Nobody opens the office meanwhile, up to the moment of the rename; from then on it is the new file.
for each in "cp 1" "rm 2" "mv 1"; do
    fresh
    rm -f "$COUNT.asked"
    compare "an office that is opened before ${each% *}" 0 "$(steps "asked ${each% *}" | cut -d ';' -f 1)"
    compare "an office that is opened before ${each% *}" "3; store Q4 depot: cannot open $store: database is locked" \
        "$(sed -n "${each#* }p" "$COUNT.asked")"
    is_whole "an office that is opened before ${each% *}"
done

fresh
rm -f "$store-wal"
refused "the program that holds the office is killed" "3; compact: the program that held $store has ended" \
    "$(steps "held cmp" | sed 's/3; .*Killed.*compact: /3; compact: /')"

# Waits until nothing of a process group goes on.
ended_group() {
    local end=$((SECONDS + 60))
    while ps -eo pgid=,stat= | awk -v group="$1" '$1 == group && $2 !~ /^Z/ { found = 1 } END { exit !found }'; do
        [ "$SECONDS" -lt "$end" ] || fail "what a call began goes on for a minute"
        sleep 0.02
    done
}
# What a killed call left is a whole office, and the next call succeeds.
goes_on_after() {
    is_whole "$1"
    compare "$1: what the folder has" office.db \
        "$(cd "$room/office" && find . -mindepth 1 -maxdepth 1 -printf '%P\n' | sort | paste -sd ' ' |
            sed 's/ office.db-wal//; s/ office.db.compact//')"
    compare "$1: the next call" 0 "$(run "$store" anna | cut -d ';' -f 1)"
    compare "$1: what the folder has then" office.db "$(files "$room/office")"
    is_whole "$1, and the next call"
}
killed=0
renamed=0
for at in before alone after told; do
    for step in $(seq "$count"); do
        # (of the calls before the audit, every fourth; it is told to end at every third)
        [ "$step" -gt $((count - 13)) ] || [ $((step % 4)) -eq 0 ] || continue
        [ "$at" != told ] || [ $((step % 3)) -eq 0 ] || continue
        fresh
        was=$(stat -c %i "$store")
        echo 0 >"$COUNT"
        AT="$step $at" PATH=$room/step:$PATH setsid "$compact" "$store" anna >"$room/said" 2>"$room/told" &
        call=$!
        status=0
        wait "$call" 2>/dev/null || status=$?
        ended_group "$call"
        if [ "$at" = told ]; then
            # (as its last step it removes its folder, and has done all)
            compare "told to end at step $step" "3 office.db" \
                "$status $(files "$room/office" | sed 's/ office.db-wal//')"
        else
            compare "killed at step $step" 137 "$status"
        fi
        [ "$(stat -c %i "$store")" = "$was" ] || renamed=$((renamed + 1))
        goes_on_after "$at step $step"
        killed=$((killed + 1))
    done
done
for _ in $(seq 12); do
    fresh
    echo 0 >"$COUNT"
    AT=none PATH=$room/step:$PATH setsid "$compact" "$store" anna >"$room/said" 2>"$room/told" &
    call=$!
    sleep "$(printf '%d.%03d' $((RANDOM % took / 1000)) $((RANDOM % took % 1000)))"
    kill -KILL -- "-$call" 2>/dev/null || true
    wait "$call" 2>/dev/null || true
    ended_group "$call"
    goes_on_after "killed at some moment"
    killed=$((killed + 1))
done
if [ "$killed" -lt 50 ] || [ "$renamed" -lt 4 ]; then
    fail "$killed calls were killed, and $renamed of them had renamed the file: too few"
fi

# An office that was killed, whose changes are in its log.
fresh
serve_office "$store" 2024-03-02
number=$(anna -d '{"collection":"maps","matter":"Case 8"}' "$address/holds")
kill_office
compare "an office that was killed" 0 "$(run "$store" anna | cut -d ';' -f 1)"
compare "the hold that it took" "$number Case 8" \
    "$(sqlite3 -readonly "file:$store?immutable=1" \
        "SELECT printf('{\"hold\":%d} %s', number, matter) FROM $HOLDS ORDER BY number DESC LIMIT 1")"

# ---- its unit

boot "$program" "$room"
units=$top/examples/systemd
within bash -eu <<END
useradd --system --home-dir /var/lib/depot depot
install -D -m 755 "$program" /usr/local/bin/depot
for each in "$units"/*; do
    case \$each in
    *.service | *.timer) install -m 644 "\$each" /etc/systemd/system/ ;;
    *.conf) ;;
    *) install -D -t /usr/local/lib/depot "\$each" ;;
    esac
done
install -D -m 644 -t /etc/systemd/system/depot@.service.d "$units/sandbox.conf"
install -D -m 644 -t /etc/systemd/system/depot-.service.d "$units/sandbox.conf"
install -d /etc/depot
sed 's/^AUDITOR=.*/AUDITOR=anna/' "$units/office.conf" >/etc/depot/office.conf
install -d -m 700 -o depot -g depot /var/lib/depot /var/lib/depot/office /var/backups/depot /var/backups/depot/office
install -m 600 -o depot -g depot "$room/first/office.db" /var/lib/depot/office/
systemctl daemon-reload
END
# What the office of the machine answers.
says() {
    local end=$((SECONDS + 60))
    until anna_within http://127.0.0.1:8080/deposits 2>"$room/why"; do
        [ "$SECONDS" -lt "$end" ] || fail "the office doesn't serve: $(cat "$room/why")"
        sleep 0.2
    done
}
state() {
    within systemctl is-active "$1" || true
}
in_machine() {
    rm -rf "$room/from"
    mkdir "$room/from"
    within cat /var/lib/depot/office/office.db >"$room/from/office.db"
}
within systemctl start depot@office
list=$(says)
in_machine
size=$(stat -c %s "$room/from/office.db")
within bash -c "$(block "$section" 2)" || fail "the page's commands in the machine fail"
compare "in the machine: the office serves again" "$list" "$(says)"
# (an office that answers is still `activating` until its proxy is told)
for _ in $(seq 100); do
    [ "$(state depot@office)" = activating ] || break
    sleep 0.2
done
compare "in the machine: the office" active "$(state depot@office)"
in_machine
[ "$(stat -c %s "$room/from/office.db")" -lt "$size" ] ||
    fail "in the machine the file has $size bytes, and isn't shorter"
compare "in the machine: what is seen of destroyed contents" 0 "$(traces "$room/from" | cut -d ' ' -f 2)"
compare "in the machine: its backup" 1 "$(within find /var/backups/depot/office -name '*.db' | wc -l)"
compare "in the machine: the folder" "office.db" \
    "$(within ls /var/lib/depot/office | grep -v -e '\.day$' -e '-wal$' | paste -sd ' ')"
# It fails, and the office goes on.
within sed -i 's/^AUDITOR=.*/AUDITOR=carl/' /etc/depot/office.conf
status=0
within systemctl start depot-compact@office 2>"$room/told" || status=$?
compare "in the machine: a caller who may not audit" "1 failed" "$status $(state depot-compact@office)"
compare "in the machine: the office goes on" "$list" "$(says)"
within journalctl -o cat -u depot-compact@office | grep -q '^compact: 0 of [0-9]* deposits could be audited as carl' ||
    fail "the journal doesn't say why"
within sed -i 's/^AUDITOR=.*/AUDITOR=anna/' /etc/depot/office.conf
# An office that was stopped stays stopped.
within systemctl stop depot@office depot-backup@office
within systemctl start depot-compact@office
# (what it does at its end comes after that)
while [ "$(state depot-compact@office)" = deactivating ]; do sleep 0.2; done
sleep 1
compare "in the machine: an office that was stopped" inactive "$(state depot@office)"
compare "in the machine: its timer" disabled "$(within systemctl is-enabled depot-compact@office.timer || true)"
halt_machine
echo "compact: $cases cases, $killed of them calls that were ended at some moment ($renamed after the rename): no" \
    "destroyed payload is left, and each office answers as before"
