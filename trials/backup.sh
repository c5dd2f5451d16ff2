#!/usr/bin/env bash
# Backs up an office that serves, by the commands of docs/OPERATING.md, "Stopping and backing up", word for word. The
# copy, opened elsewhere, has each of three deposits that were answered, byte for byte. So has the office that is
# restored from it. Then it shows what other copies give: the file alone, after a kill and while the office runs; the
# file and its log, of two moments and after a kill; the file after the last connection; a backup beside a later log.
# Argument: the program; if left out, that of DEPOT, or the repository's own.
set -eu
top=$(readlink -f "$(dirname "$(readlink -f "$0")")/..")
. "$top/trials/needs.sh"
. "$top/trials/cases.sh"
. "$top/trials/processes.sh"
. "$top/trials/offices.sh"
. "$top/trials/pages.sh"
needs curl
needs_program "$@"
make_room
bag=$top/examples/bag-a.bagset
day=2024-03-02
section="Stopping and backing up"

# Has the office of `office.db` serve: `serve [COUNT]`.
serve() {
    serve_office office.db "$day" "${1-}"
}

# In an empty folder, a new office that serves, and three deposits that it has answered: `begin [COUNT]`.
begin() {
    rm -rf "$room/work"
    mkdir -p "$room/work/copy"
    cd "$room/work"
    ln -s "$program" depot
    ln -s "$top/examples" examples
    ./depot policy office.db "$top/examples/policy.toml" >said
    printf '{"years":1}' >years
    request PUT /collections/maps | ./depot ask office.db "$day" >said
    request PUT /classes/y1 years | ./depot ask office.db "$day" >said
    serve "${1-}"
    deposit 1
    deposit 2
    deposit 3
}

# What the office of a file answers to a request that changes nothing, or why it isn't opened, and how the command ends.
asks() {
    local status=0
    request GET "$2" | timeout 60 ./depot ask "$1" "$day" >answer 2>why || status=$?
    echo "$(paste -sd' ' why)$(body <answer); $status"
}

# What follows the head of an answer.
body() {
    tr -d '\r' | sed '1,/^$/d'
}

# The numbers of the deposits that the office of a file has, or why it isn't opened, and how the command ends.
deposits_of() {
    asks "$1" /deposits | numbers
}

# The office of a file has the three deposits, each of them byte for byte.
has_three() {
    local number
    compare "$1" '{"deposits":[1,2,3]}; 0' "$(deposits_of "$2")"
    for number in 1 2 3; do
        compare "$1, and deposit $number is downloaded" "$(cat "$bag"); 0" "$(asks "$2" "/deposits/$number/bag")"
    done
}

# Bags with different bytes, so long that three of them fill the log, which is then copied into the file.
large=$room/large
mkdir "$large"
for number in {4..8}; do
    head -c 1500000 /dev/urandom | make_bag "$large/bag"
    "$program" pack "$large/bag" "$large/$number" >/dev/null
done

# As the page says.
begin
follow "$section" 1
cp backup/2024-03-02.db copy/office.db
has_three "the page's copy, opened elsewhere" copy/office.db
compare "the page's look into it" '{"deposits":[1,2,3]}' "$(follow "$section" 2 | body | numbers)"
serve
deposit 4
deposit 5
follow "$section" 3 >said
has_three "the office that the page restores" office.db
serve
deposit 4
stop_office
compare "it goes on, and is killed" '{"deposits":[1,2,3,4]}; 0' "$(deposits_of office.db)"

# The page's restore moves what was there away, also where there is no log, and where there is no office.
for there in "office.db office.db-wal" office.db ""; do
    rm -rf replaced-*
    if [ -z "$there" ]; then rm -f office.db*; elif [ "$there" = office.db ]; then rm -f office.db-wal; fi
    follow "$section" 3 >said
    has_three "the page's restore of '$there'" office.db
    compare "what was there" "$there" "$(find replaced-* -type f -printf '%f\n' 2>/dev/null | sort | paste -sd' ')"
    serve
    stop_office
done

# An office that runs, or has ended already.
begin
compare "the log of an office that runs is to be folded in" \
    'store Q4 depot: cannot open office.db: database is locked; 3' "$(asks office.db /due)"
stop_office
follow "$section" 1
has_three "the page's copy of an office that had ended" backup/2024-03-02.db

# The file alone: an older office.
begin
cp office.db copy/office.db
compare "the file alone, while the office runs" '{"deposits":[]}; 0' "$(deposits_of copy/office.db)"
stop_office
cp office.db copy/office.db
compare "the file alone, after a kill" '{"deposits":[]}; 0' "$(deposits_of copy/office.db)"

# The file and its log, after a kill.
begin
stop_office
cp office.db office.db-wal copy/
has_three "the file and its log, after a kill" copy/office.db

# The file and its log while the office runs: with nothing between the two copies, and with some deposits.
begin
cp office.db office.db-wal copy/
has_three "the file and its log, while the office rests" copy/office.db
cp office.db copy/office.db
for number in 4 5 6 7; do deposit "$number" "$large/$number"; done
cp office.db-wal copy/office.db-wal
compare "the file, and later its log" \
    'store Q4 depot: cannot open copy/office.db: database disk image is malformed; 3' \
    "$(deposits_of copy/office.db)"
stop_office
begin
cp office.db-wal copy/office.db-wal
deposit 4
cp office.db copy/office.db
compare "the log, and later the file" '{"deposits":[1,2,3]}; 0' "$(deposits_of copy/office.db)"
stop_office

# The file after the last connection.
begin 3
ended "$office"
cp office.db copy/office.db
has_three "the file alone, after the last connection" copy/office.db

# A backup that is put beside a later log: the log counts, or the two don't fit.
begin 3
ended "$office"
cp office.db older.db
serve
deposit 4
stop_office
cp older.db office.db
compare "a backup beside a later log" '{"deposits":[1,2,3,4]}; 0' "$(deposits_of office.db)"
serve
for number in 5 6 7 8; do deposit "$number" "$large/$number"; done
stop_office
cp older.db office.db
compare "a backup beside a log of after a copy into the file" \
    'store Q4 depot: cannot open office.db: database disk image is malformed; 3' \
    "$(deposits_of office.db)"
echo "backup: $cases cases: the commands of docs/OPERATING.md, word for word, keep three deposits, and what each" \
    "other copy gives is as the page says"
