#!/usr/bin/env bash
# Builds the Debian package by `examples/debian/build`. In a machine that it boots it installs the package, has an
# office serve by it, upgrades it while the office runs, removes it and purges it. An upgrade first makes a backup by
# the old program, and the office serves again after it. A removal leaves each office, its copies and its settings as
# they were, and no unit.
# Argument: the program; if left out, that of DEPOT, or the repository's own.
# shellcheck disable=SC2016 # what is in single quotes is for others
set -eu
top=$(readlink -f "$(dirname "$(readlink -f "$0")")/..")
. "$top/trials/needs.sh"
. "$top/trials/cases.sh"
. "$top/trials/processes.sh"
. "$top/trials/boots.sh"
needs dpkg-deb=dpkg curl man=man-db pgrep=procps
needs_root "a machine that is booted"
needs_program "$@"
make_room

# ---- the package

for words in '' "$room/none" "$room $room"; do
    status=0
    # shellcheck disable=SC2086 # these are words
    "$top/examples/debian/build" $words >"$room/said" 2>&1 || status=$?
    matches "build $words" '2; Usage: build FOLDER, where FOLDER is a folder that is there' \
        "$status; $(cat "$room/said")"
done
mkdir "$room/first" "$room/later" "$room/broken"
first=$(DEPOT=$program "$top/examples/debian/build" "$room/first")
matches "the first package" "$room/first/depot_*_amd64.deb" "$first"
matches "its version is the program's" "$("$program" --help 2>&1 | sed -n '1s/.* \([0-9.]*\).*/\1/p')" \
    "$(dpkg-deb -f "$first" Version)"
later=$(DEPOT=$program VERSION=99.0 "$top/examples/debian/build" "$room/later")
matches "a later one" "$room/later/depot_99.0_amd64.deb" "$later"
matches "what has been built is one file" "${first##*/}" "$(ls "$room/first")"
dpkg-deb -x "$first" "$room/tree"
cmp "$program" "$room/tree/usr/bin/depot"
matches "files that name the place of a local installation" '' \
    "$(grep -rlE '/usr/local/(lib/depot|bin/depot)' "$room/tree/usr/lib" || true)"
matches "its change log, compressed without a name and a time" '' \
    "$(gzip -9n <"$top/CHANGELOG.md" | cmp - "$room/tree/usr/share/doc/depot/changelog.gz" 2>&1 || true)"
matches "whose the files are" 'root/root' "$(dpkg-deb -c "$first" | awk '{ print $2 }' | sort -u)"

# ---- a machine

boot "$room" "$program"
# What the office answers.
asks() {
    # shellcheck disable=SC2154 # each call sets it
    anna_within -w ' %{http_code}' "$@" "http://127.0.0.1:8080$target"
}
# The state of a unit.
state() {
    within systemctl show -P ActiveState "$1"
}

# (what is installed is noted in files that this machine, below, may change meanwhile: a copy)
within sh -c 'cp -a /var/lib/dpkg /run/dpkg && mount --bind /run/dpkg /var/lib/dpkg'
within dpkg -i "$first" >"$room/said" 2>&1 || fail "$(cat "$room/said")"
matches "the package is installed" 'install ok installed' "$(within dpkg-query -W -f '${Status}' depot)"
matches "the program runs" 'valid 1.0 files 1 bytes 3 manifests 1' "$(within depot check "$top/examples/bag-a.bagset")"
matches "its page" '/usr/share/man/man1/depot.1.gz' "$(within man -w depot)"
matches "no office runs" '' "$(within systemctl list-units --plain --no-legend 'depot*')"
matches "the user" '/var/lib/depot' "$(within getent passwd depot | cut -d : -f 6)"
matches "it is installed again" 'install ok installed' \
    "$(within dpkg -i "$first" >/dev/null 2>&1; within dpkg-query -W -f '${Status}' depot)"

# An office, set up as the page has it.
within install -m 644 /usr/share/doc/depot/examples/office.conf /etc/depot/office.conf
within install -d -m 700 -o depot -g depot /var/lib/depot/office /var/backups/depot/office
matches "an office is made" 'installed 3 rules 2 callers' \
    "$(within runuser -u depot -- \
        sh -c 'umask 077 && depot policy /var/lib/depot/office/office.db "$0"' "$top/examples/policy.toml")"
within systemctl enable --quiet --now depot@office.service depot-midnight@office.timer
target=/collections/maps matches "it is asked" '{"collection":"maps"} 200' "$(target=/collections/maps asks -X PUT)"
matches "no backup yet" '' "$(within ls /var/backups/depot/office)"

# An upgrade of the package, while the office runs.
within dpkg -i "$later" >"$room/said" 2>&1 || fail "$(cat "$room/said")"
matches "the later package is installed" '99.0' "$(within dpkg-query -W -f '${Version}' depot)"
matches "its stop made a backup" '*.db' "$(within ls /var/backups/depot/office | grep '\.db$')"
within systemctl start depot@office.service
matches "the office serves again" 'active' "$(state depot@office.service)"
matches "its timer is there again" 'active' "$(state depot-midnight@office.timer)"
matches "it goes on" '{"collection":"tax"} 200' "$(target=/collections/tax asks -X PUT)"

# An upgrade whose backup fails changes nothing: the old program stays, and the office serves again.
within dpkg -i --force-downgrade "$first" >"$room/said" 2>&1 || fail "$(cat "$room/said")"
within systemctl start depot@office.service
within sh -c 'printf "%s\n" COPIES=/proc/none >>/etc/depot/office.conf; systemctl restart depot@office.service' || true
status=0
within dpkg -i "$later" >"$room/said" 2>&1 || status=$?
matches "an upgrade whose backup fails" "1; *the backup of depot@office.service failed*" \
    "$status; $(paste -sd' ' "$room/said")"
matches "the version that stays" "$(dpkg-deb -f "$first" Version)" "$(within dpkg-query -W -f '${Version}' depot)"
within systemctl start depot@office.service
matches "the office serves by it" '{"collection":"tax"} 200' "$(target=/collections/tax asks -X PUT)"
within sh -c 'sed -i "/^COPIES=.proc/d" /etc/depot/office.conf; systemctl reset-failed "depot*"'

# It is removed, and purged.
within dpkg -r depot >"$room/said" 2>&1 || fail "$(cat "$room/said")"
matches "the program is gone" 'gone' "$(within sh -c '[ -e /usr/bin/depot ] || echo gone')"
matches "no unit is left" '' "$(within find /usr/lib/systemd /run/systemd -name 'depot*' -not -path '*/generator*')"
matches "nothing runs" '' "$(within pgrep -u depot -a || true)"
matches "the office is there" 'depot 600' "$(within stat -c '%U %a' /var/lib/depot/office/office.db)"
within dpkg -P depot >"$room/said" 2>&1 || fail "$(cat "$room/said")"
matches "a purge leaves the office" 'depot 600' "$(within stat -c '%U %a' /var/lib/depot/office/office.db)"
matches "its settings and backups" 'office.conf' "$(within ls /etc/depot)"
matches "and no link to a unit" '' "$(within find /etc/systemd/system -name 'depot*')"
matches "what was deposited is there" '{"collection":"tax"}*' "$(within cp "$program" /usr/local/bin/depot
    printf 'PUT /collections/tax HTTP/1.1\r\nDepot-Caller: anna\r\n\r\n' |
        within runuser -u depot -- /usr/local/bin/depot ask /var/lib/depot/office/office.db "$(date +%F)" | tail -n 1)"
echo "package: $cases cases: installed, used, upgraded while an office ran, removed and purged, and the office stays"
