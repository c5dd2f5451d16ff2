#!/usr/bin/env bash
# Boots a machine (boots.sh) and runs an office there under its systemd, installed by the commands of docs/OPERATING.md,
# word for word: starts, requests, midnights, stops, restores, audits, failures, a full disk, another policy, another
# program, and days that are refused. After each it looks at the states of the units, the backups and the journal. If a
# case depends on one line of a unit, the script also removes that line, and sees the case fail. A stand-in for `date`
# on the unit's PATH gives other days. There is no proxy.
# Argument: the program; if left out, that of DEPOT, or the repository's own.
# shellcheck disable=SC2016 # what is in single quotes is for the machine
set -eu
top=$(readlink -f "$(dirname "$(readlink -f "$0")")/..")
. "$top/trials/needs.sh"
. "$top/trials/cases.sh"
. "$top/trials/processes.sh"
. "$top/trials/offices.sh"
. "$top/trials/boots.sh"
. "$top/trials/pages.sh"
needs curl sqlite3 rsync runuser=util-linux sha256sum=coreutils
needs_root "a machine that is booted"
needs_program "$@"
make_room
section="With systemd"
store=/var/lib/depot/office
copies=/var/backups/depot/office
desk=http://127.0.0.1:8080

# Runs a command in the machine, in a folder with the repository's examples.
inside() {
    within bash -euc "cd /root/depot; $1"
}

# Runs a block of commands of the page in the machine: `follow_inside SECTION NUMBER [BEFORE]`.
follow_inside() {
    local commands
    commands=$(block "$1" "$2")
    inside "${3-}
$commands" >"$room/said" 2>&1 || fail "block $2 under '$1' ended with $?: $(cat "$room/said")"
}

# Waits until a command succeeds: `until_so SECONDS COMMAND..`.
until_so() {
    local end=$((SECONDS + $1))
    shift
    until "$@" >/dev/null 2>&1; do
        [ "$SECONDS" -lt "$end" ] || fail "this doesn't come true: $*"
        sleep 0.2
    done
}

state() {
    within systemctl show --property="$2" --value "$1"
}

# The states of the office and of its backup.
states() {
    echo "$(state depot@office ActiveState) $(state depot-backup@office ActiveState)"
}

is_active() {
    [ "$(state depot@office ActiveState)" = active ]
}

# What the journal says since the last call of `mark`, of a unit.
mark() {
    moment=$(date +%s.%N)
}
journal() {
    within journalctl --no-pager --output=cat --since="@$moment" --unit="$1"
}
says() {
    journal "$1" | grep -qE -- "$2"
}

# The number of backups, and the newest.
backups() {
    within find "$copies" -maxdepth 1 -name '*.db' | wc -l
}
newest() {
    within find "$copies" -maxdepth 1 -name '*.db' | sort | tail -n 1
}
# How many there are since the last call: `grown WHAT NUMBER`.
made=0
grown() {
    local now
    now=$(backups)
    matches "$1: new backups" "$2" "$((now - made))"
    made=$now
}

deposit() {
    anna_within --data-binary "@$top/examples/bag-a.bagset" \
        "http://127.0.0.1:${2-8080}/deposits?collection=maps&class=y1&accession=A-$1&closed=2020-02-29"
}
# The deposits that are listed.
deposits() {
    anna_within "$desk/deposits" | count_listed
}
# The day that is served.
day() {
    anna_within "$desk/due" | sed 's/{"day":"\([^"]*\)".*/\1/'
}

# Gives the office its day from now on.
give_day() {
    inside "echo $1 >/usr/local/lib/days/day"
}

# Puts a drop-in of the office's unit in, or takes it out.
drop_in() {
    inside "mkdir -p /etc/systemd/system/$1.d; cat >/etc/systemd/system/$1.d/$2.conf; systemctl daemon-reload"
}
take_out() {
    inside "rm /etc/systemd/system/$1.d/$2.conf; systemctl daemon-reload"
}

boot "$program"
within mkdir /root/depot
within cp -r "$top/examples" /root/depot/
within install "$program" /usr/local/bin/depot
within install -D -m 644 "$top/docs/depot.1" /usr/local/share/man/man1/depot.1
inside 'sed "/^carl = /a auditor = \"auditor\"" examples/policy.toml >policy.toml
for action in list audit; do
    printf "\n[[rule]]\neffect = \"allow\"\nrole = \"auditor\"\naction = \"%s\"\n" $action
    printf "collection = \"*\"\nclass = \"*\"\n"
done >>policy.toml'

# ---- set up, and a first day

mark
follow_inside "$section" 1
matches "the units are set up" "active active" "$(states)"
matches "nothing of the machine failed" "" "$(within systemctl list-units --failed --plain --no-legend 'depot*')"
matches "who may read what is there" \
    "$(printf '%s\n' '600 depot office.day' '600 depot office.db' '600 depot office.db-wal')" \
    "$(within find "$store" -type f -printf '%m %u %f\n' | sort)"
today=$(within date +%F)
matches "the day that is served" "$today" "$(day)"
matches "the day that is recorded" "$today" "$(within cat "$store/office.day")"
anna_within -X PUT -d '{"years":1}' "$desk/classes/y1" >"$room/said"
anna_within -X PUT "$desk/collections/maps" >"$room/said"
for number in 1 2 3; do
    matches "a deposit" "{\"deposit\":$number}" "$(deposit $number)"
done
matches "the next midnight" "$(within date -d tomorrow '+%a %F 00:00:05 %Z')" \
    "$(state depot-midnight@office.timer NextElapseUSecRealtime)"
matches "what systemd says of it" '*Next elapse: Thu 2024-02-29 00:00:05 UTC*' \
    "$(TZ=UTC systemd-analyze calendar --base-time='2024-02-28 13:00:00 UTC' \
        "$(sed -n 's/^OnCalendar=//p' "$top/examples/systemd/depot-midnight@.timer")")"
matches "the next audit" 'Sun *' "$(state depot-audit@office.timer NextElapseUSecRealtime)"

# ---- stops and starts

within systemctl stop depot@office depot-backup@office
matches "it is stopped" "inactive inactive" "$(states)"
grown "a stop" 1
matches "the day beside it" "$today" "$(within cat "$(newest | sed 's/db$/day/')")"
matches "a proxy sees that it is closed" "yes" \
    "$(within runuser -u nobody -- sh -c 'test -f /run/depot/office.closed && echo yes')"
# The office waits until the clock is right. Since a container doesn't set its clock, a stand-in waits for that.
drop_in systemd-time-wait-sync.service clock <<'END'
[Unit]
ConditionCapability=
ConditionVirtualization=
[Service]
ExecStart=
ExecStart=/bin/sh -c 'until [ -e /run/clock ]; do sleep 0.2; done'
END
within systemctl stop time-sync.target
within systemctl start --no-block systemd-time-wait-sync depot@office
sleep 3
matches "the clock isn't right yet" "inactive activating" \
    "$(state depot@office ActiveState) $(state systemd-time-wait-sync ActiveState)"
within touch /run/clock
until_so 30 is_active
matches "a proxy sees that it is open" "no" "$(within sh -c 'test -e /run/depot/office.closed || echo no')"
within systemctl restart depot@office
matches "it was restarted by a person" "active active" "$(states)"
grown "a restart" 1
within systemctl start depot-midnight@office.service
matches "midnight" "active active" "$(states)"
grown "midnight" 1
matches "its deposits" 3 "$(deposits)"

# A failure: it starts again by itself, and makes no backup.
fails() {
    local process
    process=$(state depot@office MainPID)
    within systemctl kill --kill-who=main --signal=KILL depot@office
    until_so 20 within sh -c "test ! -d /proc/$process"
}
mark
fails
until_so 30 is_active
matches "it was killed" "active active" "$(states)"
matches "its deposits" 3 "$(deposits)"
grown "a failure" 0
matches "the journal" yes "$(! says depot@office 'status=9/KILL' || echo yes)"
within systemctl restart depot@office
grown "a restart after it" 1
# A person who stops it while it is about to start again gets a backup.
fails
until_so 10 within sh -c 'systemctl show --property=SubState depot@office | grep -q start-pre'
within systemctl stop depot@office depot-backup@office
matches "it was killed, and stopped" "inactive inactive" "$(states)"
grown "a stop after a failure" 1
within systemctl start depot@office
# Without the line that makes the difference each failure makes a backup.
printf '[Service]\nExecStopPost=\n' | drop_in depot@office.service control
fails
until_so 30 is_active
grown "control: a failure, without ExecStopPost" 1
take_out depot@office.service control

# While it opens, which takes long here, a proxy sees that it is closed. It can be stopped then, and that is no failure.
printf '[Service]\nEnvironment=DEPOT=/usr/local/lib/slow\n' | drop_in depot@office.service slow
inside 'printf "#!/bin/sh\nexec sleep 60\n" >/usr/local/lib/slow; chmod 755 /usr/local/lib/slow'
within systemctl stop depot@office depot-backup@office
grown "a stop" 1
within systemctl start --no-block depot@office
until_so 20 within sh -c 'systemctl show --property=SubState depot@office | grep -q start-post'
sleep 1
matches "it is opening" "activating yes" \
    "$(state depot@office ActiveState) $(within sh -c 'test -f /run/depot/office.closed && echo yes')"
within systemctl stop depot@office depot-backup@office
matches "it was stopped while it opened" "inactive inactive" "$(states)"
grown "a stop" 1
take_out depot@office.service slow
within systemctl start depot@office

# The connections are used up.
follow_inside "Who did what" 1
matches "the proxy's log is for the proxy and the office's user" 'www-data depot 640' \
    "$(within stat -c '%U %G %a' /var/log/depot/access.log)"
inside "echo one >>/var/log/depot/access.log; printf '%s\n' COUNT=2 LOGS=/var/log/depot >>/etc/depot/office.conf
    systemctl restart depot@office"
grown "a restart" 1
matches "the proxy's logs are with it" one "$(within cat "$copies/logs/access.log")"
process=$(state depot@office MainPID)
day >"$room/said"
day >"$room/said"
until_so 20 within sh -c "test ! -d /proc/$process"
inside "sed -i '/^COUNT=/d; /^LOGS=/d' /etc/depot/office.conf; systemctl daemon-reload"
until_so 30 is_active
matches "its connections were used up" 3 "$(deposits)"
grown "connections that are used up" 0

# ---- a store that another program has locked

within systemctl stop depot@office depot-backup@office
grown "a stop" 1
inside "systemd-run --quiet --unit=locks --uid=depot --property=WorkingDirectory=$store \
    sh -c '(echo \"PRAGMA locking_mode=EXCLUSIVE; BEGIN IMMEDIATE; SELECT 1;\"; sleep 300) | sqlite3 office.db'"
until_so 10 says locks '^1$'
# Control: with the limit that systemd has otherwise it gives up.
printf '[Unit]\nStartLimitIntervalSec=60\nStartLimitBurst=5\n' | drop_in depot@office.service control
within systemctl start --no-block depot@office
until_so 60 says depot@office 'Start request repeated too quickly'
matches "control: a locked store, with a limit of starts" "failed" "$(state depot@office ActiveState)"
take_out depot@office.service control
within systemctl reset-failed depot@office
mark
within systemctl start --no-block depot@office
sleep 60
matches "a store that was locked for a minute" yes \
    "$(is_active || [ "$(state depot@office NRestarts)" -lt 5 ] || echo yes)"
matches "the journal" yes "$(! says depot@office 'database is locked' || echo yes)"
within systemctl stop locks
until_so 30 is_active
matches "the store is free again" "active active; 3" "$(states); $(deposits)"
grown "a locked store" 0

# ---- restores, as root

# Deposits another one by a process that is killed, so that there is a log.
log() {
    within systemd-run --quiet --unit="byhand-$1" --uid=depot --property="WorkingDirectory=$store" \
        depot serve --port 8081 --count 100 office.db "$today"
    until_so 30 says "byhand-$1" listening
    matches "a deposit that the log has" "{\"deposit\":$1}" "$(deposit "$1" 8081)"
    within systemctl kill --signal=KILL "byhand-$1"
    until_so 10 within sh -c "! systemctl is-active byhand-$1"
}
mark
status=0
within /usr/local/lib/depot/restore "$(newest)" "$store/office.db" >"$room/said" 2>&1 || status=$?
matches "a restore while it runs" \
    "1; restore: process $(state depot@office MainPID) has $store/office.db open: stop the office first" \
    "$status; $(cat "$room/said")"
matches "the deposits then" 3 "$(deposits)"
matches "a fourth deposit" '{"deposit":4}' "$(deposit 4)"
copy=$(newest)
restored=0
for with in "a log" "no log" "no store"; do
    within systemctl stop depot@office depot-backup@office
    grown "a stop before the restore" 1
    case $with in
    "a log") log 5 ;;
    "no log") within rm -f "$store/office.db-wal" ;;
    *) within sh -c "rm $store/office.db*" ;;
    esac
    # (the page stops it once more)
    follow_inside "Stopping and backing up" 4 "copy=$copy"
    restored=$((restored + 1))
    matches "a restore with $with" "active active; 3" "$(states); $(deposits)"
    matches "whose files they are" \
        "$(printf '%s\n' '600 depot office.day' '600 depot office.db' '600 depot office.db-wal')" \
        "$(within find "$store" -maxdepth 1 -type f -printf '%m %u %f\n' | sort)"
    matches "a fourth deposit again" '{"deposit":4}' "$(deposit 4)"
    sleep 1
done
made=$(backups)
matches "what was there" "$(printf '%s\n' office.day office.day office.db office.db office.db-wal)" \
    "$(within find "$store" -path '*/replaced-*/*' -printf '%f\n' | sort)"
matches "the deposits of what was replaced first" '{"deposits":[*"deposit":5,*' "$(inside "mkdir -m 777 /tmp/look
    cp -p $store/replaced-*/office.db* /tmp/look/ 2>/dev/null || true
    cp \$(find $store -path '*/replaced-*/office.db-wal' | sed 's/-wal\$//') \
        \$(find $store -path '*/replaced-*/office.db-wal') /tmp/look/
    printf 'GET /deposits HTTP/1.1\r\nDepot-Caller: anna\r\n\r\n' | depot ask /tmp/look/office.db $today | tail -n 1")"

# ---- audits

audit() {
    mark
    within systemctl start depot-audit@office.service 2>/dev/null || true
    state depot-audit@office.service Result
}
within systemctl restart depot@office
grown "a restart" 1
matches "an audit" "success" "$(audit)"
matches "the journal" yes "$(! says depot-audit@office "^4 of 4 deposits of $(newest) are valid" || echo yes)"
# Control: without the line of the sandbox that lets the program make its log.
inside 'for each in depot@ depot-; do
    sed -i.kept /^SystemCallFilter=@chown/d /etc/systemd/system/$each.service.d/sandbox.conf
done
systemctl daemon-reload'
matches "control: an audit that may not make a log" "exit-code" "$(audit)"
matches "the journal" yes \
    "$(! within journalctl --no-pager --since="@$moment" |
        grep -qE 'SIGSYS|Bad system call|code=dumped|status=159' || echo yes)"
inside 'for each in depot@ depot-; do
    mv /etc/systemd/system/$each.service.d/sandbox.conf.kept /etc/systemd/system/$each.service.d/sandbox.conf
done
systemctl daemon-reload'
# Another byte in the content that the deposits share.
within systemctl restart depot@office
grown "a restart" 1
damaged=$(newest)
within sqlite3 "$damaged" "UPDATE content SET bytes = x'616264' WHERE bytes = x'616263'"
matches "an audit of a damaged backup" "exit-code" "$(audit)"
matches "what failed" "depot-audit@office.service *" \
    "$(within systemctl list-units --failed --plain --no-legend 'depot*')"
matches "the journal" 4 "$(journal depot-audit@office | grep -c '^deposit [1-4] .*B17')"
within rm "$damaged" "${damaged%db}day"
matches "an audit of the backup before" "success" "$(audit)"
made=$(backups)

# ---- another policy, and another program

lists_as_carl() {
    within curl -sS -H 'Depot-Caller: carl' "$desk/deposits" | count_listed
}
matches "what the clerk lists" 0 "$(lists_as_carl)"
inside 'sed -i "s/^class = \"y10\"/class = \"y1\"/" policy.toml'
follow_inside "$section" 2
matches "another policy" "active active; 4" "$(states); $(lists_as_carl)"
grown "another policy" 1
inside 'cp /usr/local/bin/depot depot.new; echo >>depot.new'
follow_inside "A new version of the program" 3
matches "another program" "active active; 4; yes" \
    "$(states); $(deposits); $(inside 'cmp depot.new /usr/local/bin/depot && echo yes')"
matches "the one before" yes \
    "$(inside '! cmp -s depot.new /usr/local/bin/depot.old && test -x /usr/local/bin/depot.old && echo yes')"
grown "another program" 1

# ---- days

inside 'mkdir /usr/local/lib/days
printf "%s\n" "#!/bin/sh" "[ \"\$*\" = +%F ] && exec cat /usr/local/lib/days/day" "exec /usr/bin/date \"\$@\"" \
    >/usr/local/lib/days/date
chmod 755 /usr/local/lib/days/date'
printf '[Service]\nEnvironment=PATH=/usr/local/lib/days:/usr/bin:/bin\n' | drop_in depot@office.service days

# The day isn't served: what the journal says, after a start that fails.
is_refused() {
    mark
    within systemctl start depot@office 2>/dev/null || true
    sleep "${3-0}"
    matches "$1" "failed 4 0" \
        "$(state depot@office ActiveState) $(state depot@office ExecMainStatus) $(state depot@office NRestarts)"
    local day
    day=$(within cat /usr/local/lib/days/day)
    matches "$1: the journal" \
        "$2; if it is right, call: echo $day >$store/office.confirm, as the office's user" \
        "$(journal depot@office | grep '^the day is')"
}
# A person confirms it by the command that the journal has.
confirms() {
    within runuser -u depot -- sh -c \
        "$(journal depot@office | sed -n "s/.*call: \(echo.*\), as the office's user/\1/p")"
    within systemctl start depot@office
}
# The day that is served, and the one that is recorded.
both_days() {
    echo "$(day) $(within cat "$store/office.day")"
}
within systemctl stop depot@office depot-backup@office
give_day 2024-02-28
is_refused "an earlier day" "the day is 2024-02-28, before the day last served, $today" 8
matches "the day that is recorded then" "$today" "$(within cat "$store/office.day")"
within runuser -u depot -- sh -c "echo 2024-02-27 >$store/office.confirm"
is_refused "an earlier day, and another one confirmed" "the day is 2024-02-28, before the day last served, $today"
matches "that is told" yes \
    "$(! says depot@office "office.confirm doesn't count: it names 2024-02-27, and the day is 2024-02-28" || echo yes)"
confirms
matches "it is confirmed" "active active; 2024-02-28 2024-02-28" "$(states); $(both_days)"
matches "what is left of the confirmation" "no" "$(within sh -c "test -e $store/office.confirm || echo no")"
give_day 2024-02-29
within systemctl start depot-midnight@office.service
matches "midnight, and a leap day" "2024-02-29 2024-02-29" "$(both_days)"
# By `replay`, over a copy of the newest backup, the same is due on the same day.
anna_within -X PUT "$desk/classes/y4" -d '{"years":4}' >"$room/said"
matches "a deposit that is due on the leap day" '{"deposit":5}' \
    "$(anna_within --data-binary "@$top/examples/bag-a.bagset" \
        "$desk/deposits?collection=maps&class=y4&accession=A-5&closed=2020-02-29")"
matches "what is due" '{"day":"2024-02-29","deposits":\[1,2,3,4,5\]}' "$(anna_within "$desk/due")"
within systemctl restart depot@office
matches "what is due by replay" '{"day":"2024-02-29","deposits":\[1,2,3,4,5\]}' "$(inside "cp $(newest) look.db
    printf 'GET /due HTTP/1.1\r\nDepot-Caller: anna\r\n\r\n' >one
    { echo REQ 2024-02-29 \$(wc -c <one); cat one; echo; } | depot replay look.db | tail -n 1")"
give_day 2024-03-07
within systemctl restart depot@office
matches "seven days later" "2024-03-07 2024-03-07" "$(both_days)"
give_day 2024-03-15
within systemctl stop depot@office depot-backup@office
is_refused "eight days later" "the day is 2024-03-15, more than seven days after the day last served, 2024-03-07" 8
confirms
matches "it is confirmed" "active active; 2024-03-15 2024-03-15" "$(states); $(both_days)"
matches "the backup before has its day" 2024-03-07 "$(within cat "$(newest | sed 's/db$/day/')")"
# Control: without the comparison any day is served.
inside 'sed -i.kept "s/ refuse 4 .*/ :/" /usr/local/lib/depot/serve'
give_day 2031-01-01
within systemctl restart depot@office
matches "control: a wrong day, without the comparison" "2031-01-01 2031-01-01" "$(both_days)"
inside 'mv /usr/local/lib/depot/serve.kept /usr/local/lib/depot/serve'
within systemctl stop depot@office depot-backup@office
give_day 2024-03-16
is_refused "the right day after a wrong one" "the day is 2024-03-16, before the day last served, 2031-01-01"
confirms
matches "it is confirmed" "2024-03-16 2024-03-16" "$(both_days)"

# ---- a disk that fills

within systemctl stop depot@office depot-backup@office
made=$(backups)
within sh -c "mkdir -m 700 /root/kept && mv $store/office.* /root/kept/ &&
    mount -t tmpfs -o size=6m,mode=700,uid=depot,gid=depot office $store &&
    cp -p /root/kept/* $store/ && chown depot: $store/*"
within systemctl start depot@office
large() {
    head -c 700000 /dev/urandom | make_bag "$room/bag"
    rm -f "$room/form"
    "$program" pack "$room/bag" "$room/form" >"$room/said"
    anna_within --data-binary @- -w ' %{http_code}' \
        "$desk/deposits?collection=maps&class=y1&accession=A-$1&closed=2020-02-29" <"$room/form"
}
kept=5
until_full() {
    local answer
    while answer=$(large $((kept + 1))) && [ "$answer" = "{\"deposit\":$((kept + 1))} 201" ] && [ "$kept" -lt 30 ]; do
        kept=$((kept + 1))
    done
    matches "a deposit that has no room" '{"error":"Store"} 503' "$answer"
}
until_full
matches "the disk is full" "active active; $kept" "$(states); $(deposits)"
within mount -o remount,size=9m "$store"
kept=$((kept + 1))
matches "there is room" "{\"deposit\":$kept} 201" "$(large $kept)"
until_full
within runuser -u depot -- sh -c "dd if=/dev/zero of=$store/filling bs=4096 2>/dev/null" || true
mark
within systemctl stop depot@office depot-backup@office
matches "it is stopped, and the disk is full" "inactive failed" "$(states)"
matches "the journal" yes "$(! says depot-backup@office 'database or disk is full' || echo yes)"
grown "a stop on a full disk" 0
give_day 2024-03-17
within systemctl start --no-block depot@office
until_so 30 says depot@office "the day 2024-03-17 can't be recorded in office.day, and isn't served"
sleep 12
matches "the day can't be recorded, and is tried again" "[1-9]*" "$(is_active || state depot@office NRestarts)"
within rm "$store/filling"
within mount -o remount,size=64m "$store"
until_so 30 is_active
matches "there is room again" "active active; $kept; 2024-03-17 2024-03-17" "$(states); $(deposits); $(both_days)"
within systemctl stop depot@office depot-backup@office
grown "a stop with room" 1
matches "all is stopped" "inactive inactive" "$(states)"
matches "nothing failed" "" "$(within systemctl list-units --failed --plain --no-legend 'depot*')"
halt_machine
echo "booted: $cases cases: an office under a running systemd, by the commands of docs/OPERATING.md, word for word"
