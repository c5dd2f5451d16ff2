#!/usr/bin/env bash
# Moves an office to another machine by the commands of docs/OPERATING.md, word for word; each machine is a folder here.
# On the new one the audit finds each deposit valid, and the office serves each of them byte for byte and goes on; the
# old machine can't start it again by mistake. The same holds for the newest backup, if the old machine is lost. An
# archive that was damaged on its way is refused.
# Argument: the program; if left out, that of DEPOT, or the repository's own.
set -eu
top=$(readlink -f "$(dirname "$(readlink -f "$0")")/..")
. "$top/trials/needs.sh"
. "$top/trials/cases.sh"
. "$top/trials/processes.sh"
. "$top/trials/offices.sh"
. "$top/trials/pages.sh"
needs curl
needs_program "$@"
make_room
bag=$top/examples/bag-a.bagset
day=2024-03-02
section="Moving to another machine"

# A machine of this name, with the program and the examples.
machine() {
    mkdir "$room/$1"
    cd "$room/$1"
    ln -s "$program" depot
    ln -s "$top/examples" examples
}

# The office of this machine serves.
serve() {
    serve_office office.db "$day"
}

# It serves this number of deposits, each of them byte for byte, and takes a further one.
goes_on() {
    local number
    serve
    for number in $(seq "$1"); do
        anna "$address/deposits/$number/bag" -o kept
        cmp kept "$bag"
        cases=$((cases + 1))
    done
    deposit $(($1 + 1))
    stop_office
}

machine old
./depot policy office.db examples/policy.toml >said
serve
anna -X PUT -d '{"years":1}' "$address/classes/y1" >said
anna -X PUT "$address/collections/maps" >said
for number in 1 2 3; do deposit "$number"; done
# A backup as it is made each day, and a deposit after it.
stop_office
DEPOT=./depot examples/systemd/backup office.db backup >said
serve
deposit 4
follow "$section" 1
status=0
./depot ask office.db "$day" </dev/null >said 2>told || status=$?
compare "the old machine starts the office again" '3; store Q1' "$status; $(head -n 1 told)"

machine new
cp ../old/moving.tar .
compare "the page's look at what has come" "office.db: OK
4 of 4 deposits of check/moved.db are valid" "$(follow "$section" 2)"
goes_on 4

# An archive that was damaged on its way.
machine damaged
sed 's/abc/abd/' ../old/moving.tar >moving.tar
status=0
bash -c "$(block "$section" 2)" >said 2>told || status=$?
compare "a damaged archive" '1; office.db: FAILED' "$status; $(tail -n 1 said)"

# The old machine is lost: the newest backup, which lacks what came after it.
machine restored
mkdir backup
cp ../old/backup/*.db backup/
follow "$section" 3 >said
compare "the page's look at the backup" '3 of 3' "$(grep -o '^[0-9]* of [0-9]*' said)"
goes_on 3
echo "moving: $cases cases: the office goes on elsewhere, by the commands of docs/OPERATING.md, word for word"
