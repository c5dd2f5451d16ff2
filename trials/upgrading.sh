#!/usr/bin/env bash
# Goes to a new version of the program, and back, by the commands of docs/OPERATING.md, word for word. The office has
# the tables of version 4, as an older program made them: then it has the newest and all its deposits. The way back puts
# the old program and the file from before in their places, byte for byte. (The old program is here a copy of the new
# one: what it answers isn't tried. `trials/upgrade.py` compares each row.)
# Argument: the program; if left out, that of DEPOT, or the repository's own.
set -eu
top=$(readlink -f "$(dirname "$(readlink -f "$0")")/..")
. "$top/trials/needs.sh"
. "$top/trials/cases.sh"
. "$top/trials/processes.sh"
. "$top/trials/offices.sh"
. "$top/trials/pages.sh"
needs python3
needs_program "$@"
make_room
cd "$room"
section="A new version of the program"

# The version of the tables, of a copy of the file.
version() {
    cp office.db look.db
    python3 -c 'import sqlite3; print(sqlite3.connect("look.db").execute("SELECT version FROM office").fetchone()[0])'
}

ln -s "$program" depot.new
ln -s "$top/examples" examples
cp "$program" depot
made=$(PYTHONPATH=$top/trials python3 -c 'from shared.stores import VERSION, make
print(VERSION, sum(it["gone"] is None for it in make("office.db", 4, 200, 60, 20).deposits))')
read -r newest kept <<<"$made"
compare "an older program's office" 4 "$(version)"
mkdir backup
cp office.db backup/2024-03-02.db
follow "$section" 1 >said
compare "the answer of the new program" '{"deposits":[' "$(tail -n 1 said | head -c 13)"
compare "its deposits" "$kept" "$(count_listed <said)"
compare "its tables" "$newest" "$(version)"
cmp depot depot.old
follow "$section" 2 >said
cmp office.db backup/2024-03-02.db
compare "the tables after the way back" 4 "$(version)"
replaced=(replaced-*/office.db)
[ -x depot ] && [ ! -e depot.old ] && [ -e depot.new ] && [ -e "${replaced[0]}" ]
echo "upgrading: $cases cases: to the new program and back, by the commands of docs/OPERATING.md, word for word"
