#!/usr/bin/env bash
# Tries `copy`, `fold`, `drill` and `prune` of examples/systemd. A copy of an office that serves has what was answered,
# byte for byte; the office goes on, whatever ends the copy. Under a running systemd, in a machine that is booted for
# this, the copy is killed at 50 moments, and the office answers each time; without `ExecStopPost` it stays stopped. A
# drill fails on a damaged, an older and a smaller copy, and on others. Of a year's copies `prune` keeps those that
# another program computes. Each has a control: what it does without the line that is tried.
# Argument: the program; if left out, that of DEPOT, or the repository's own.
set -eu
top=$(readlink -f "$(dirname "$(readlink -f "$0")")/..")
. "$top/trials/needs.sh"
. "$top/trials/cases.sh"
. "$top/trials/processes.sh"
. "$top/trials/offices.sh"
. "$top/trials/boots.sh"
. "$top/trials/pages.sh"
needs curl sqlite3 rsync python3 sshd=openssh-server ssh=openssh-client
needs_root "a machine that is booted"
needs_program "$@"
export DEPOT=$program
make_room
units=$top/examples/systemd
bag=$top/examples/bag-a.bagset
day=2024-03-02

# The status of a command, and what it prints.
says() {
    local status=0
    "$@" >said 2>told || status=$?
    echo "$status; $(paste -sd' ' said)$(paste -sd' ' told)"
}
serve() {
    serve_office office.db "$day"
}
# Whether the office answers within a second.
answers() {
    curl -sS -o /dev/null --max-time 1 "$address/due" 2>/dev/null && echo yes || echo no
}
# The numbers of the deposits of a copy, each of which has the bag's bytes.
deposits_of() {
    local number numbers
    rm -f look.db*
    cp "$1" look.db
    request GET /deposits | "$program" ask look.db "$day" >said
    numbers=$(grep -o '"deposit":[0-9]*' said | cut -d : -f 2 | paste -sd' ')
    for number in $numbers; do request GET "/deposits/$number/bag" | record; done >records
    "$program" replay look.db <records >answers
    [ "$(grep -caF "$(head -n 1 "$bag")" answers)" = "$(wc -w <<<"$numbers")" ] || fail "a bag isn't whole"
    echo "$numbers"
}
# What a folder has.
has() {
    find "$1" -mindepth 1 -maxdepth 1 -printf '%f\n' | LC_ALL=C sort | paste -sd' '
}
# A copy of a script without the lines that a pattern names, which has its neighbours beside it; and that there are
# some.
without() {
    mkdir -p changed
    cp "$units"/{copy,fold,drill,prune,audit} changed/
    sed -i "$2" "changed/$1"
    ! cmp -s "changed/$1" "$units/$1" || fail "'$2' changes nothing in $1"
}
# A `cp` that takes its time before it copies, on a PATH of its own. (It starts nothing that would outlive it.)
slow() {
    mkdir -p slow
    rm -f began
    printf '#!/bin/bash\n: >began\nread -rt %s <> <(:) || true\nexec /bin/cp "$@"\n' "$1" >slow/cp
    chmod 755 slow/cp
}
# Waits until the office stands still, and is copied.
until_still() {
    local each
    for each in {1..500}; do
        [ ! -f began ] || break
        sleep 0.02
    done
    rm began
    grep -q '^State:.T' "/proc/$office/status" || fail "the office doesn't stand still"
}

cd "$room"
"$program" policy office.db "$top/examples/policy.toml" >said
serve
anna -X PUT -d '{"years":1}' "$address/classes/y1" >said
anna -X PUT "$address/collections/maps" >said
for number in 1 2 3; do deposit "$number"; done

# ---- invalid arguments: one line, status 2, and nothing is made

for words in "" "office.db" "none.db copies" "office.db ." "office.db office.db" "office.db copies x y" \
    "office.db copies ho;st:x" "--continue" "--continue a b"; do
    # shellcheck disable=SC2086 # words
    matches "copy $words" '2; copy: * usage: copy *' "$(says "$units/copy" $words)"
done
for words in "" none "a b"; do
    # shellcheck disable=SC2086
    matches "fold $words" '2; fold: * usage: fold FOLDER' "$(says "$units/fold" $words)"
done
for words in "" . "none anna" ". an/na"; do
    # shellcheck disable=SC2086
    matches "drill $words" '2; drill: * usage: drill FOLDER CALLER' "$(says "$units/drill" $words)"
done
for words in "" . ". 1 1" "none 1 1 1" ". 1 x 1" ". 1 08 1" ". 1 1 -1" ". 1 1 100000"; do
    # shellcheck disable=SC2086
    matches "prune $words" '2; prune: * usage: prune *' "$(says "$units/prune" $words)"
done
matches "wrong LONGEST" '2; copy: LONGEST *' "$(LONGEST=0 says "$units/copy" office.db copies)"
matches "wrong LOGS" '2; copy: LOGS *' "$(LOGS=none says "$units/copy" office.db copies)"
matches "what wrong words made" '' "$(find . -name 'copies*' -o -name '*.part')"

# ---- a copy

echo $day >office.day
matches "a copy" '0; copies/????-??-??-??????.db: the office stood still for * ms' \
    "$(says "$units/copy" office.db copies)"
copy=$(cut -d : -f 1 said)
matches "what it left" "$(basename "$copy" .db).day $(basename "$copy")" "$(has copies)"
matches "its day" "$day" "$(cat "${copy%.db}.day")"
matches "its deposits" '1 2 3' "$(deposits_of "$copy")"
matches "the office" yes "$(answers)"
# Without a log that is copied, the same office is empty.
# shellcheck disable=SC2016
without copy 's/\[ ! -f "$store-wal" \] || files+=.*/:/'
rm -rf copies
matches "a copy without the log" '0; copies/*' "$(says changed/copy office.db copies)"
matches "its deposits" '' "$(deposits_of copies/*.db)"
rm -rf copies

# Two calls at once: the second says so, and leaves alone what the first has in hand. Two in one second have two names.
slow 1
PATH=$PWD/slow:$PATH "$units/copy" office.db copies >first 2>&1 &
first=$!
until_still
matches "two calls for one office" '1; copy: another call copies office.db' "$(says "$units/copy" office.db copies)"
matches "what the first has in hand" '????-??-??-??????.part' "$(has copies)"
ended "$first"
matches "the first" 'copies/*.db: the office stood still for [1-9]??? ms' "$(cat first)"
"$units/copy" office.db copies >said & first=$!
ended "$first"
"$units/copy" office.db copies >said
matches "three copies" 3 "$(find copies -name '*.db' | wc -l)"
rm -rf copies

# Nothing serves: nothing is copied. So it is while another command has the office open, before it listens.
stop_office
matches "nothing serves" '0; nothing serves office.db, and nothing was copied' "$(says "$units/copy" office.db copies)"
mkfifo records-in
"$program" replay office.db <records-in >answers &
replay=$!
exec 5>records-in
until [ -n "$(find "/proc/$replay/fd" -lname "$PWD/office.db")" ]; do sleep 0.1; done
matches "another command" '0; nothing serves office.db, and nothing was copied' "$(says "$units/copy" office.db copies)"
exec 5>&-
ended "$replay"
matches "what came of it" '' "$(find . -name 'copies*')"
serve

# ---- whatever ends it, the office goes on

# A disk without room, in whose place there is a limit on the length of files.
matches "no room" '1; ' \
    "$( (trap '' XFSZ; ulimit -f 2; PATH=$PATH says "$units/copy" office.db copies) 2>/dev/null | sed 's/;.*/; /')"
matches "the office" yes "$(answers)"
matches "what it left" '' "$(has copies)"
# A copy that takes too long.
slow 20
matches "too long" '1; copy: the copy took more than 1 seconds*' \
    "$(LONGEST=1 PATH=$PWD/slow:$PATH says "$units/copy" office.db copies)"
matches "the office" yes "$(answers)"
matches "what it left" '' "$(has copies)"
# Signals to the script alone, and by SIGKILL; what it started goes on, and holds the folder's lock.
for signal in HUP INT TERM KILL; do
    slow 3
    (trap - INT; PATH=$PWD/slow:$PATH exec setsid "$units/copy" office.db copies) >said 2>&1 &
    first=$!
    until_still
    disown "$first"
    kill "-$signal" "$first"
    ended "$first" 2>/dev/null || true
    matches "the office after SIG$signal" yes "$(answers)"
    [ "$signal" != KILL ] || matches "what it has in hand" '1; copy: another call copies into copies' \
        "$(says "$units/copy" office.db copies)"
done
sleep 3.2
matches "what SIGKILL left" '????-??-??-??????.part' "$(has copies)"
mkdir "copies/notes.part"
matches "the next call" '0; copies/*' "$(says "$units/copy" office.db copies)"
matches "takes it away, and no other folder" '*.day *.db notes.part' "$(has copies)"
rm -rf copies
# The whole session by SIGKILL: `--continue`.
slow 3
PATH=$PWD/slow:$PATH setsid "$units/copy" office.db copies >said 2>&1 &
first=$!
until_still
disown "$first"
kill -KILL -- "-$first"
ended "$first" 2>/dev/null || true
matches "the office, after all was killed" no "$(answers)"
matches "copy --continue" '0; ' "$(says "$units/copy" --continue office.db)"
matches "the office" yes "$(answers)"
rm -rf copies

# The office goes on while it is copied: what was taken isn't a copy, and is taken again. So it is where it ends.
cat >slow/cp <<'END'
#!/bin/sh
if mkdir "$ONCE" 2>/dev/null; then kill "-$SIGNAL" "$OFFICE"; sleep 0.3; kill -STOP "$OFFICE" 2>/dev/null; fi
exec /bin/cp "$@"
END
export OFFICE=$office
matches "an office that went on" '0; copies/*' \
    "$(ONCE=once1 SIGNAL=CONT PATH=$PWD/slow:$PATH says bash -x "$units/copy" office.db copies | sed 's/ms.*/ms/')"
matches "how often it was copied" 2 "$(grep -c '^+* *cp --reflink' told)"
# shellcheck disable=SC2016
without copy 's/\[\[ $before == "$seen".*/true/'
rm -rf copies
matches "control: without the look" '0; copies/*' \
    "$(ONCE=once2 SIGNAL=CONT PATH=$PWD/slow:$PATH says bash -x changed/copy office.db copies | sed 's/ms.*/ms/')"
matches "how often it was copied" 1 "$(grep -c '^+* *cp --reflink' told)"
rm -rf copies
disown "$office"
matches "an office that ends" '0; nothing serves office.db any more, and nothing was copied' \
    "$(ONCE=once3 SIGNAL=KILL PATH=$PWD/slow:$PATH says "$units/copy" office.db copies)"
matches "what it left" '' "$(has copies)"
ended "$office" 2>/dev/null || true
rm -rf copies
serve

# ---- the standby, the logs, and `fold`

mkdir logs other
echo one >logs/access.log
matches "a standby" "0; $PWD/other/*.db: *" "$(LOGS=logs says "$units/copy" office.db copies "$PWD/other")"
matches "what is here" 'logs' "$(has copies)"
matches "what is there" '*.day *.db logs raw' "$(has other)"
matches "its deposits" '1 2 3' "$(deposits_of other/*.db)"
matches "its logs" 'one one' "$(cat copies/logs/access.log other/logs/access.log | paste -sd' ')"
matches "fold, a second time" '0; ' "$(says "$units/fold" other)"
rm other/*.db
matches "fold, once more" "0; other/*.db" "$(says "$units/fold" other)"
rm other/*.db
printf x | dd of=other/raw/office.db bs=1 seek=5000 conv=notrunc 2>/dev/null
matches "a raw copy that isn't whole" "1; fold: the raw copy * isn't whole" "$(says "$units/fold" other)"
matches "what is there" '*.day logs raw' "$(has other)"
# shellcheck disable=SC2016
without fold '/office.db" \] ||$/{N;s/ ||\n.*; then$/; then/}'
matches "control: without its sums" '[01]; *' "$(says changed/fold other)"
[ "$(ls other/*.db 2>/dev/null)" ] || grep -q "can't be opened" told || fail "the sums were asked all the same"
rm -rf other
matches "a standby that isn't there" \
    '1; copies/*.db: the office *copy: nowhere:/x didn* take the copy, which stands in copies' \
    "$(RSYNC_RSH=false says "$units/copy" office.db copies nowhere:/x |
        sed 's/ rsync[^c]*copy:/ copy:/;s/ms.*copy: nowhere/mscopy: nowhere/')"
matches "its deposits" '1 2 3' "$(deposits_of copies/*.db)"
rm -rf copies

# ---- a drill

# A copy of the office as it is, under the name of an earlier moment, `name`: `copied AGO`, such as "5 minutes".
copied() {
    rm -rf one
    "$units/copy" office.db one >said
    name=$(date -u -d "$1 ago" +%F-%H%M%S)
    mv one/*.db "copies/$name.db"
}
hold() {
    anna -d "{\"$1\":$2,\"matter\":\"Case $1\"}" "$address/holds" >said
}
mkdir copies
matches "a folder without a copy" "1; drill: there is no copy in copies" "$(says "$units/drill" copies anna)"
copied "40 hours"
matches "a copy that is too old" "1; drill: no copy of copies is newer than a day and a half: *" \
    "$(says "$units/drill" copies anna)"
copied "300 minutes"
first=$name
matches "a drill" \
    "0; copies/$name.db is valid: deposits up to 3, 3 of them kept and audited; holds up to 0, 0 live ones *" \
    "$(says "$units/drill" copies anna)"
matches "another of the same copy" "0; *" "$(says "$units/drill" copies anna)"
hold deposit 1
hold class '"y1"'
deposit 4
stop_office
day=2025-03-02
serve
anna -X DELETE "$address/deposits/4" >said # held
anna -X DELETE "$address/holds/2" >said
anna -X DELETE "$address/deposits/4" >said
copied "200 minutes"
matches "a drill of a later copy" \
    "0; copies/$name.db is valid: deposits up to 4, 3 of them kept and audited; holds up to 2, 1 live ones *" \
    "$(says "$units/drill" copies anna)"
early="copy $first last 3 hold 0 kept 3 live 0"
matches "what was found valid" "$early,$early,copy $name last 4 hold 2 kept 3 live 1" \
    "$(paste -sd, copies/drill.seen)"
matches "no folder is left in TMPDIR" '' "$(mkdir tmp; TMPDIR=$PWD/tmp "$units/drill" copies anna >said; ls tmp)"
# Older by its name: the newest ones are gone.
mkdir away
mv "copies/$name.db" away/
matches "an older copy" \
    "1; drill: the newest copy of copies is $first, and the drill before found $name, which is newer" \
    "$(says "$units/drill" copies anna)"
# Older by what it has, under a newer name.
mv "away/$name.db" copies/
later=$(date -u -d "100 minutes ago" +%F-%H%M%S)
cp "copies/$first.db" "copies/$later.db"
matches "a smaller office" "1; drill: the last deposit of $later is 3, and that of $name was 4" \
    "$(says "$units/drill" copies anna)"
# shellcheck disable=SC2016
without drill '/^if \[ -n "$seen" \]; then/,/^fi/d'
cp copies/drill.seen kept.seen
matches "control: without the comparison" "0; copies/$later.db is valid*" "$(says changed/drill copies anna)"
cp kept.seen copies/drill.seen
# The destroyed deposit is back, or a hold is gone: the rows of another program, for an office of before.
cp "copies/$name.db" "copies/$later.db"
sed -i 's/kept 3 live 1$/kept 2 live 1/' copies/drill.seen
matches "a destroyed deposit is back" "1; drill: 1 deposits of $later were destroyed, and 2 of $name" \
    "$(says "$units/drill" copies anna)"
sed 's/hold 2/hold 3/' kept.seen >copies/drill.seen
matches "a hold is gone" "1; drill: the last hold of $later is 2, and that of $name was 3" \
    "$(says "$units/drill" copies anna)"
echo x >copies/drill.seen
matches "another file as drill.seen" "1; drill: the last line of copies/drill.seen *" \
    "$(says "$units/drill" copies anna)"
cp kept.seen copies/drill.seen
# A deposit that isn't valid, a copy that isn't whole, a caller who sees a part, and no room.
sqlite3 "copies/$later.db" "UPDATE content SET bytes = x'616264' WHERE bytes = x'616263'"
matches "a damaged deposit" "1; *deposit 1 *B17*drill: the audit of $later failed" "$(says "$units/drill" copies anna)"
head -c 20000 "copies/$name.db" >"copies/$later.db"
matches "a copy that isn't whole" "1; *drill: $later can't be opened" "$(says "$units/drill" copies anna)"
cp "copies/$name.db" "copies/$later.db"
matches "a caller who may list nothing" "1; *drill: the audit of $later failed" "$(says "$units/drill" copies eve)"
mkdir full
printf '#!/bin/sh\nprintf "F B U A C M\\n/dev/x 100 90 10 90%%%% /\\n"\n' >full/df
chmod 755 full/df
matches "no room" "3; drill: /tmp has 10 KiB left, and this drill needs *" \
    "$(TMPDIR=/tmp PATH=$PWD/full:$PATH says "$units/drill" copies anna)"
matches "what failed changes nothing" '' "$(diff kept.seen copies/drill.seen)"
mv "copies/$later.db" "copies/$(date -u -d '2 days' +%F-%H%M%S).db"
matches "a copy of a moment to come" "1; drill: the newest copy of copies, *, is of a moment that is still to come" \
    "$(says "$units/drill" copies anna)"
rm -rf copies
# An office without a deposit, and a caller who may list one class alone.
stop_office
rm office.db*
printf '%s\n' 'version = 1' '[callers]' 'anna = "archivist"' 'bea = "clerk"' \
    '[[rule]]' 'effect = "allow"' 'role = "archivist"' 'action = "*"' 'collection = "*"' 'class = "*"' \
    '[[rule]]' 'effect = "allow"' 'role = "clerk"' 'action = "*"' 'collection = "*"' 'class = "y2"' >two.toml
"$program" policy office.db two.toml >said
serve
mkdir copies
copied "9 minutes"
matches "an office without a deposit" "0; copies/$name.db is valid: deposits up to 0, 0 of them *" \
    "$(says "$units/drill" copies anna)"
for class in y1 y2; do
    anna -X PUT -d '{"years":1}' "$address/classes/$class" >said
    anna -X PUT "$address/collections/maps" >said
    anna --data-binary "@$bag" "$address/deposits?collection=maps&class=$class&accession=$class&closed=2024-02-29" >said
done
copied "5 minutes"
matches "a caller who may list a part" "1; drill: $name has 2 deposits, and bea may list fewer: 1 of 1" \
    "$(says "$units/drill" copies bea)"
matches "one who may list all" "0; *" "$(says "$units/drill" copies anna)"
stop_office

# ---- old copies

# What is to stay of a folder's copies, computed by another program: `stays FOLDER HOURS DAYS WEEKS [VALID]`.
stays() {
    python3 - "$@" <<'END'
import datetime, os, re, sys
folder, counts, valid = sys.argv[1], [int(n) for n in sys.argv[2:5]], sys.argv[5:]
names = sorted(
    (n[:17] for n in os.listdir(folder) if re.fullmatch(r"\d{4}-[01]\d-[0-3]\d-[0-2]\d[0-5]\d[0-5]\d\.db", n)),
    reverse=True,
)
kept = set(names[:1] + [n for n in valid if n in names])
kinds = [lambda m: m.strftime("%Y%m%d%H"), lambda m: m.date(), lambda m: m.isocalendar()[:2]]
for kind, count in zip(kinds, counts):
    met = []
    for name in names:
        which = kind(datetime.datetime.strptime(name, "%Y-%m-%d-%H%M%S"))
        if which not in met:
            met.append(which)
            if len(met) <= count:
                kept.add(name)
print("\n".join(sorted(kept)))
END
}
# A year of copies, each quarter of an hour, and others of each midnight; some weeks have none.
rm -rf year
mkdir year
python3 - <<'END'
import datetime
moment, count = datetime.datetime(2023, 11, 20, 0, 7), 0
while moment < datetime.datetime(2024, 12, 31, 18):
    if not datetime.datetime(2024, 5, 3) < moment < datetime.datetime(2024, 5, 27):
        name = moment.strftime("year/%Y-%m-%d-%H%M%S")
        open(name + ".db", "w").close()
        if count % 3:
            open(name + ".day", "w").close()
    count += 1
    moment += datetime.timedelta(minutes=15, seconds=count % 7)
END
touch year/notes.db year/2024-03-02.db year/2024-03-02-1015.db year/2024-99-02-101500.db year/2024-03-02-101500.db.part
mkdir year/raw year/2024-03-02-999999.db
others=$(find year -mindepth 1 -not -name '????-??-??-??????.d*' -o -type d -o -name '2024-99*' | sort)
count=$(find year -type f -name '????-??-??-??????.db' | wc -l)
cp -r year again
stays year 24 14 53 >wanted
says "$units/prune" year 24 14 53 >status
matches "a year of copies" '0; *' "$(cut -c 1-10 status)"
find year -type f -name '????-??-??-??????.db' -not -name '2024-99*' -printf '%f\n' | cut -d . -f 1 | sort >found
matches "what stays of a year" '' "$(diff wanted found)"
matches "a line for each" $((count - 1 - $(wc -l <wanted))) "$(grep -c "^removed 'year/[0-9-]*\.db'$" said)"
matches "no day without its copy" '' "$(for each in year/*.day; do [ -e "${each%.day}.db" ] || echo "$each"; done)"
matches "other files" "$others" \
    "$(find year -mindepth 1 -not -name '????-??-??-??????.d*' -o -type d -o -name '2024-99*' | sort)"
matches "a second call" '0; ' "$(says "$units/prune" year 24 14 53)"
# Killed in the middle, and called again.
mkdir broken
cat >broken/rm <<'END'
#!/bin/sh
for each; do
    case $each in
    -*) ;;
    *)
        n=$((n + 1))
        [ $n -le 701 ] || kill -KILL 0
        /bin/rm -fv "$each"
        ;;
    esac
done
END
chmod 755 broken/rm
{ PATH=$PWD/broken:$PATH says setsid --wait "$units/prune" again 24 14 53 >status; } 2>/dev/null
matches "a call that is killed" '137; *' "$(cut -c 1-10 status)"
left=$(find again -type f -name '*.db' | wc -l)
[ "$left" -gt $(($(wc -l <wanted) + 10)) ] || fail "it wasn't killed in the middle"
says "$units/prune" again 24 14 53 >status
matches "killed, and called again" '' "$(diff -rq year again)"
# The newest are corrupt, and the newest valid one is older than all that stays.
valid=$(sed -n 5p found)
printf 'copy %s last 1 hold 0 kept 1 live 0\n' "$(sed -n 3p found)" "$valid" 2024-01-01-000000 >year/drill.seen
stays year 2 1 1 "$valid" >wanted
"$units/prune" year 2 1 1 >said
find year -type f -name '????-??-??-??????.db' -not -name '2024-99*' -printf '%f\n' | cut -d . -f 1 | sort >found
matches "the newest valid one stays" '' "$(diff wanted found)"
matches "and is there" "$valid" "$(grep -x "$valid" found)"
# shellcheck disable=SC2016
without prune 's/|| $1 == valid//'
cp -r year other
changed/prune other 2 1 1 >said
matches "control: without that" "removed 'other/$valid.db'*" "$(cat said)"
"$units/prune" year 0 0 0 >said
matches "none is to stay" "$(tail -n 1 found) $valid" \
    "$(find year -type f -name '????-??-??-??????.db' -not -name '2024-99*' -printf '%f\n' | cut -d . -f 1 | sort -r |
        paste -sd' ')"
mkdir empty foreign
touch foreign/office.db foreign/2024-03-02.db
matches "an empty folder" '0; ' "$(says "$units/prune" empty 1 1 1)"
matches "a foreign folder" '0; ' "$(says "$units/prune" foreign 1 1 1)"
matches "its files" 2 "$(find foreign -type f | wc -l)"

# ---- under a running systemd

boot "$program" "$room"
cat >inside <<END
set -eu
top=$top
program=$program
bag=$bag
END
cat >>inside <<'END'
systemctl is-active -q depot@office && exit 0
groupadd --system depot
useradd --system --gid depot --home-dir /var/lib/depot --shell /bin/sh depot
install -d -m 700 -o depot -g depot /var/lib/depot /var/lib/depot/office /var/backups/depot \
    /var/backups/depot/office /srv/standby /var/lib/depot/.ssh
find "$top/examples/systemd" -type f -executable -exec install -D -t /usr/local/lib/depot {} +
install -m 755 "$program" /usr/local/bin/depot
install -m 644 "$top"/examples/systemd/depot*.service "$top"/examples/systemd/depot*.timer /etc/systemd/system/
install -D -m 644 -t /etc/systemd/system/depot@.service.d "$top/examples/systemd/sandbox.conf"
install -D -m 644 -t /etc/systemd/system/depot-.service.d "$top/examples/systemd/sandbox.conf"
install -D -m 644 "$top/examples/systemd/office.conf" /etc/depot/office.conf
sed -i 's/^AUDITOR=.*/AUDITOR=anna/' /etc/depot/office.conf
runuser -u depot -- depot policy /var/lib/depot/office/office.db "$top/examples/policy.toml" >/dev/null
systemctl daemon-reload
systemctl start depot@office
for each in $(seq 100); do curl -sS -o /dev/null http://127.0.0.1:8080/due 2>/dev/null && break; sleep 0.2; done
asks() { curl -sS --fail -H 'Depot-Caller: anna' -o /dev/null "$@"; }
asks -X PUT -d '{"years":1}' http://127.0.0.1:8080/classes/y1
asks -X PUT http://127.0.0.1:8080/collections/maps
for n in 1 2 3; do
    asks --data-binary "@$bag" \
        "http://127.0.0.1:8080/deposits?collection=maps&class=y1&accession=A-$n&closed=2024-02-29"
done
END
within bash "$room/inside" >said 2>told || fail "the office can't be installed: $(tail -n 5 told)"
# The journal's last line of a unit.
journal() {
    within journalctl --sync
    within journalctl -q -o cat "_SYSTEMD_UNIT=$1.service" _TRANSPORT=stdout | tail -n 1
}
for unit in depot-copy depot-drill depot-prune; do
    for each in "$unit@office.service" "$unit@office.timer"; do
        matches "$each" '' "$(within systemd-analyze verify --man=no --recursive-errors=no "$each" 2>&1)"
    done
done
within systemctl start depot-copy@office.service
matches "the unit's copy" '/var/backups/depot/office/*.db: the office stood still for * ms' \
    "$(journal depot-copy@office)"
within systemctl start depot-drill@office.service
matches "the unit's drill" '/var/backups/depot/office/*.db is valid: deposits up to 3, 3 of them kept *' \
    "$(journal depot-drill@office)"
within touch /var/backups/depot/office/2024-01-01-000000.db /var/backups/depot/office/2024-01-01-000007.db
within systemctl start depot-prune@office.service
matches "the unit's prune" "removed '/var/backups/depot/office/2024-01-01-000000.db'" "$(journal depot-prune@office)"
within bash -c "$(block "Copies without a stop" 1)" 2>/dev/null
matches "the page's timers" 3 "$(within systemctl list-timers --no-legend 'depot-*' | wc -l)"
within systemctl stop depot-{copy,drill,prune}@office.timer
matches "a quarter of an hour" '* 15min' \
    "$(within systemd-analyze calendar --iterations=2 '*:07/15' |
        grep -c -e ':07:00' -e ':22:00' -e ':37:00' -e ':52:00' | sed 's/[24]/& 15min/')"
# To a standby, over ssh: here it is the same machine.
cat >inside <<'END'
set -eu
mkdir -p /run/sshd
ssh-keygen -q -t ed25519 -N '' -f /var/lib/depot/host
ssh-keygen -q -t ed25519 -N '' -f /var/lib/depot/.ssh/id_ed25519
cp /var/lib/depot/.ssh/id_ed25519.pub /var/lib/depot/.ssh/authorized_keys
sed 's/^/[127.0.0.1]:2222 /' /var/lib/depot/host.pub >/var/lib/depot/.ssh/known_hosts
chown -R depot:depot /var/lib/depot/.ssh
systemd-run -q --unit=ssh-here /usr/sbin/sshd -D -p 2222 -h /var/lib/depot/host -o ListenAddress=127.0.0.1 \
    -o StrictModes=no
install -d -m 2751 -o root -g depot /var/log/depot
echo one >/var/log/depot/access.log
printf '%s\n' STANDBY=depot@127.0.0.1:/srv/standby 'RSYNC_RSH=ssh -p 2222' LOGS=/var/log/depot >>/etc/depot/office.conf
for each in $(seq 50); do
    systemctl reset-failed depot-copy@office.service
    systemctl start depot-copy@office.service && break
    sleep 0.2
done
find /srv/standby -name '*.log' -o -name '*.db' | sort | paste -sd' '
sed -i '/STANDBY=depot@127/,$d' /etc/depot/office.conf
END
matches "the unit's copy to a standby" '/srv/standby/*.db /srv/standby/logs/access.log /srv/standby/raw/office.db' \
    "$(within bash "$room/inside" 2>&1)"
matches "what it says" 'depot@127.0.0.1:/srv/standby/*.db: the office stood still for * ms' \
    "$(journal depot-copy@office)"

# Killed at 50 moments of its run. (A `cp` that takes a while, so that some moments come while the office stands still.)
cat >inside <<'END'
set -eu
printf '#!/bin/sh\nsleep 0.3\nexec /bin/cp "$@"\n' >/usr/local/bin/cp
chmod 755 /usr/local/bin/cp
office=$(systemctl show -P MainPID depot@office)
# (how long a whole one takes, in fiftieths)
took=${EPOCHREALTIME/./}
systemctl start depot-copy@office.service
took=$(((${EPOCHREALTIME/./} - took) / 50))
still=0
stopped=0
longest=0
for n in $(seq 50); do
    [ "$stopped" -lt 3 ] || break
    systemctl reset-failed depot-copy@office.service 2>/dev/null || true
    systemctl start --no-block depot-copy@office.service
    sleep "$(printf '%d.%06d' $((n * took / 1000000)) $((n * took % 1000000)))"
    ! grep -q '^State:.T' "/proc/$office/status" || still=$((still + 1))
    systemctl kill -s KILL depot-copy@office.service 2>/dev/null || true
    waited=$(curl -sS -o /dev/null --max-time 5 -w '%{time_total}' http://127.0.0.1:8080/due 2>/dev/null) || {
        stopped=$((stopped + 1))
        kill -CONT "$office"
    }
    longest=$(printf '%s\n' "$longest" "$waited" | sort -n | tail -n 1)
    while systemctl is-active depot-copy@office.service | grep -qE '^(activating|deactivating)$'; do sleep 0.02; done
done
rm /usr/local/bin/cp
[ "$(systemctl show -P MainPID depot@office)" = "$office" ]
echo "still $still; stopped $stopped; $longest"
END
killed=$(within bash "$room/inside")
matches "killed at 50 moments" 'still [1-9]*; stopped 0; *' "$killed"
within bash -c 'mkdir -p /run/systemd/system/depot-copy@.service.d
    printf "[Service]\nExecStopPost=\n" >/run/systemd/system/depot-copy@.service.d/no.conf
    systemctl daemon-reload'
matches "control: without ExecStopPost" 'still [1-9]*; stopped [1-9]; *' "$(within bash "$room/inside")"
within bash -c 'rm /run/systemd/system/depot-copy@.service.d/no.conf; systemctl daemon-reload'
within systemctl reset-failed depot-copy@office.service
within systemctl start depot-copy@office.service
matches "the next copy" '/var/backups/depot/office/*.db: the office *' "$(journal depot-copy@office)"
matches "what the killed ones left" '' "$(within find /var/backups/depot/office -name '*.part')"
halt_machine
still=${killed%%;*}
echo "copies: $cases cases: copies without a stop are whole; killed at 50 moments, ${still#still } of them while the" \
    "office stood still, it answered within ${killed##* } s; drills and removals do as they say"
