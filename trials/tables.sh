#!/usr/bin/env bash
# The proved program `trial_office` writes an example office into a file. The command `sqlite3` must find each row of
# `rows.txt` there and the texts of the tables of `schema.sql`, and its own checks of the file must pass. Stores of
# older versions have that schema too, once they are upgraded. The program is that of TRIAL_OFFICE, or the repository's
# own.
set -eu
top=$(readlink -f "$(dirname "$(readlink -f "$0")")/..")
. "$top/trials/needs.sh"
. "$top/trials/cases.sh"
. "$top/trials/processes.sh"
needs sqlite3 python3
needs_trial_office
make_room
file=$room/office.db

"$program" write "$file"
sqlite3 -batch "$file" <"$top/trials/rows.sql" | diff -u "$top/trials/rows.txt" -
sqlite3 -batch "$file" .schema >"$room/schema"
diff -u "$top/trials/schema.sql" "$room/schema"
sqlite3 -batch "$file" 'PRAGMA integrity_check; PRAGMA foreign_key_check;' >"$room/tested"
diff -u <(echo ok) "$room/tested"
# No second office is made in the file, and the refusal changes nothing.
if "$program" write "$file" >/dev/null 2>&1; then
    fail "a second office was made"
fi
sqlite3 -batch "$file" <"$top/trials/rows.sql" | diff -u "$top/trials/rows.txt" -
# An upgrade says of which version the tables were. The newest it leaves as they are.
newest=$(sqlite3 -batch "$file" 'SELECT version FROM office')
took=$("$program" upgrade "$file" 2>"$room/told")
[[ $took =~ ^[0-9]+$ ]]
diff -u <(echo "the tables were of version $newest") "$room/told"
sqlite3 -batch "$file" <"$top/trials/rows.sql" | diff -u "$top/trials/rows.txt" -
for version in $(seq 3 $((newest - 1))); do
    older=$room/older-$version.db
    make='import sys, upgrade; upgrade.make(sys.argv[1], int(sys.argv[2]), 40, 20, 10)'
    (cd "$top/trials" && python3 -c "$make" "$older" "$version")
    "$program" upgrade "$older" >/dev/null 2>"$room/told"
    diff -u <(echo "the tables were of version $version") "$room/told"
    sqlite3 -batch "$older" .schema | diff -u "$top/trials/schema.sql" -
    sqlite3 -batch "$older" 'PRAGMA integrity_check; PRAGMA foreign_key_check;' | diff -u <(echo ok) -
done
# A file without an office, or with one of an unknown version, isn't upgraded, and it says why.
sqlite3 -batch "$room/none.db" 'PRAGMA journal_mode = WAL; CREATE TABLE t (a)' >/dev/null
cp "$older" "$room/newer.db"
sqlite3 -batch "$room/newer.db" "UPDATE office SET version = $((newest + 1))"
for pair in "none:the file holds no office" "newer:its tables are of another version"; do
    cp "$room/${pair%%:*}.db" "$room/before"
    if "$program" upgrade "$room/${pair%%:*}.db" >/dev/null 2>"$room/told"; then
        fail "${pair%%:*} was upgraded"
    fi
    diff -u <(echo "Error: no office is upgraded: ${pair#*:}") "$room/told"
    cmp "$room/${pair%%:*}.db" "$room/before"
done
# A file is opened while its contents are there, and no longer once `sqlite3` removed one that a file has.
"$program" last "$file" 1 >/dev/null
sqlite3 -batch "$file" 'PRAGMA foreign_keys = OFF; DELETE FROM content WHERE size = 43;'
cp "$file" "$room/before"
if "$program" last "$file" 1 >/dev/null 2>&1; then
    fail "a file without one of its contents was opened"
fi
cmp "$file" "$room/before"
echo "tables: older versions are upgraded to that schema; sqlite3 finds the $(wc -l <"$top/trials/rows.txt") rows" \
    "that were written and the $(wc -l <"$top/trials/schema.sql") texts of the schema, and its own tests pass"
