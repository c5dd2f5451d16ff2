#!/usr/bin/env bash
# Exports an office by `examples/export`, as docs/OPERATING.md says: many kinds of bags, some destroyed, some held. Each
# deposit has its folder, valid and byte for byte as it was deposited, and each folder its deposit; the registers say
# what the office answers and its tables have (`exported.py`). A second office that is filled from the export has the
# same forms. Killed at 20 moments and called again, it writes the same. A second call asks for no bag, and finds one
# byte that was changed in a folder. It also names what was destroyed, what a caller may not fetch, what can't be a
# folder, a bag whose bytes rotted, a full disk, and an office that is closed. pip fetches bagit.py where it can;
# without it `exported.py` alone judges the folders, and the last line says so.
# Argument: the program; if left out, that of DEPOT, or the repository's own.
set -eu
top=$(readlink -f "$(dirname "$(readlink -f "$0")")/..")
. "$top/trials/needs.sh"
. "$top/trials/cases.sh"
. "$top/trials/processes.sh"
. "$top/trials/offices.sh"
. "$top/trials/pages.sh"
needs curl python3 sqlite3
needs_mounts
needs_program "$@"
make_room
cd "$room"
ln -s "$program" depot
ln -s "$top/examples" examples
export DEPOT=$room/depot

# A comparison of exported.py.
exported() {
    local more
    more=$(python3 "$top/trials/exported.py" "$@") || exit 1
    cases=$((cases + more))
}

# Has the office of a file serve: `serve FILE DAY`; sets OFFICE too.
serve() {
    serve_office "$@" 2>told || fail "$(cat told)"
    export OFFICE=$address
}
number_of() {
    anna "$OFFICE/deposits" | grep -o "\"accession\":\"$1\"[^}]*" | sed 's/.*"deposit":\([0-9]*\),.*/\1/'
}

# Exports: `out CALLER FOLDER [ADDRESS]`; sets `status`. Beside the folder are its standard output and its standard
# error.
out() {
    status=0
    timeout 120 examples/export "${3:-$OFFICE}" "$1" "$2" >"$2.said" 2>"$2.told" || status=$?
}
# An export is the one from before, but for the registers of the copy, which only some calls write, and for `aside`.
is_same() {
    local register
    for register in deposits.csv holds.csv bags.list; do cmp "whole/$register" "$2/$register" || exit 1; done
    diff -r whole/deposits "$2/deposits" || fail "$1: the folders differ"
    compare "$1: what else is there" "bags.list deposits deposits.csv exported holds.csv missing" \
        "$(cd "$2" && echo ./* ./.[!.]* | tr ' ' '\n' |
            grep -vE '^\./(\.\[|aside$|all_holds|classes|collections|destroyed)' | cut -c 3- | paste -sd' ')"
}

# bagit.py, which Debian doesn't have.
has_bagit="and bagit.py wasn't there to judge them"
if ! python3 -c 'import bagit' 2>/dev/null &&
    timeout 60 python3 -m pip -q --retries 0 --timeout 10 install --target bagit bagit >noise 2>&1; then
    export PYTHONPATH=$room/bagit
fi
if python3 -c 'import bagit' 2>/dev/null; then has_bagit="and bagit.py takes them"; fi

cat >policy.toml <<'END'
version = 1
[callers]
anna = "archivist"
ex = "exporter"
half = "half"
blind = "fetcher"
END
rule() {
    printf '[[rule]]\neffect = "%s"\nrole = "%s"\naction = "%s"\ncollection = "%s"\nclass = "%s"\n' "$@"
}
{
    rule allow archivist '*' '*' '*'
    rule deny exporter '*' long '*'
    rule deny half download '*' good
    rule deny half holds maps '*'
    for role in exporter half; do for action in list download holds; do rule allow "$role" "$action" '*' '*'; done; done
    rule allow fetcher download '*' '*'
} >>policy.toml

# An office of all kinds of bags, some held and some destroyed.
mkdir bags
python3 "$top/trials/exported.py" make bags >all.list
./depot policy office.db policy.toml >noise
serve office.db 2024-03-02
for class in y0:0 y1:1 y10:10 good:null; do
    anna -X PUT -d "{\"years\":${class#*:}}" "$OFFICE/classes/${class%:*}" >noise
done
for collection in maps tax letters long empty; do anna -X PUT "$OFFICE/collections/$collection" >noise; done
examples/fill "$OFFICE" anna all.list >noise
count=$(grep -c '' all.list)
hold() {
    compare "a hold" '{"hold":' "$(anna -d "$1" "$OFFICE/holds" | cut -c 1-8)"
}
hold '{"deposit":1,"matter":"Case \"7\", the \\ of Büro; },{\"hold\":9,\"matter\":\"x"}'
hold '{"deposit":1,"matter":"=1+1"}'
hold '{"collection":"tax","matter":" a, b "}'
hold '{"class":"y10","matter":"\",\"on\":\"deposit\",\"placed\":\"2024-03-02\"}"}'
hold '{"collection":"empty","matter":"to be released"}'
hold '{"deposit":18,"matter":"to be released too"}'
stop_office
serve office.db 2025-02-28
for hold in 3 5 6; do
    compare "hold $hold is released" "{\"hold\":$hold,\"released\":\"2025-02-28\"}" \
        "$(anna -X DELETE "$OFFICE/holds/$hold")"
done
for accession in DESTROYED-1.1 DESTROYED-2.1; do
    anna -X DELETE "$OFFICE/deposits/$(number_of "$accession")" >noise
    compare "$accession is destroyed" '{"day":"2025-02-28","dest' "$(cut -c 1-25 noise)"
done
stop_office
./depot ask office.db 2025-02-28 </dev/null >noise
cp office.db copy.db
listed=$((count - 3))

# The page's command, with a copy's tables; then as a second call would: no bag is asked for, and nothing written again.
serve office.db 2025-02-28
follow "A way out" 1 >page
mv out whole
compare "the page's command" "$listed of $listed deposits that ex may list are in out" "$(tail -n 1 page)"
compare "nobody else may read what is exported" "" "$(find whole -perm /077)"
compare "its lines" "1 of $listed: PLAIN.1 is deposits/1" "$(head -n 1 page)"
exported folders all.list whole "$OFFICE" ex
exported registers whole "$OFFICE" ex
exported tables whole copy.db "$OFFICE"
exported valid whole
compare "nothing is beside the copy" "copy.db" "$(echo copy.db*)"
python3 "$top/trials/shuts.py" "$port" . 0 >shut 2>told &
shutting=$!
await_port "$shutting" shut
proxy=$address
cp -a whole again
touch moment
out ex again "$proxy"
compare "a second call" "0; $listed of $listed were exported before, and are as they were" \
    "$status; $(head -n 1 again.said)"
compare "it asks for no bag" 0 "$(grep -c /bag asked || true)"
compare "it writes no bag" "" "$(find again/deposits -type f -newer moment)"
is_same "a second call" again

# A second office, with the classes and collections of the registers, filled from the export by the page's command, has
# the same forms.
first=$OFFICE
first_office=$office
./depot policy second.db policy.toml >noise
serve second.db 2025-03-01
second=$OFFICE
mv whole out
while read -r collection; do anna -X PUT "$second/collections/$collection"; done \
    < <(sed '1d; s/\r//' out/collections.csv) >noise
while IFS=, read -r class years; do anna -X PUT -d "{\"years\":$years}" "$second/classes/$class"; done \
    < <(sed '1d; s/\r//; s/permanent/null/' out/classes.csv) >noise
NEW=$second follow "A way out" 2 >page
mv out whole
compare "the second office" "$listed of $listed bags are in the office, and 0 were refused" "$(tail -n 1 page)"
while IFS=, read -r number accession _ <&3; do
    anna "$first/deposits/$number/bag" -o one
    anna "$second/deposits/$(number_of "$accession")/bag" -o other
    cmp one other || fail "$accession differs in the second office"
    cases=$((cases + 1))
done 3< <(tail -n +2 whole/deposits.csv)
compare "the second office has nothing else" "$listed" "$(anna "$second/deposits" | grep -o '"accession"' | grep -c '')"
stop_office
office=$first_office
export OFFICE=$first

# What was changed is found: a byte, a file more, one less, a folder that is another's, one that nobody exported.
rm whole/bags.list.*
cp -a whole changed
printf X | dd of=changed/deposits/16/data/large bs=1 seek=70000 conv=notrunc 2>noise
touch changed/deposits/1/data/more
rm changed/deposits/5/data/nothing
rm -r changed/deposits/7
cp -r changed/deposits/8 changed/deposits/7
mkdir changed/deposits/99 changed/deposits/mine
out ex changed
compare "what was changed is told" "1; deposits/1 was changed, and is aside/1-changed now
deposits/5 was changed, and is aside/5-changed now
deposits/7 was changed, and is aside/7-changed now
deposits/16 was changed, and is aside/16-changed now
deposit 99 isn't listed any more (404), and is aside/99-unlisted now
deposits/mine is of no deposit" "$status; $(cat changed.told)"
rmdir changed/deposits/mine
out ex changed
compare "the call after it" "0; " "$status; $(cat changed.told)"
is_same "what was changed is exported again" changed
compare "nothing that was changed is lost" "1-changed 16-changed 5-changed 7-changed 99-unlisted" \
    "$(cd changed/aside && echo ./* | tr ' ' '\n' | cut -c 3- | LC_ALL=C sort | paste -sd' ')"
# The list of what was exported is lost, or cut: the export believes nothing without it.
rm -r changed/aside changed/exported
out ex changed
compare "without the list of what was exported" "1; $listed" \
    "$status; $(grep -c 'put there by somebody else' changed.told)"
truncate -s -30 changed/exported
out ex changed
compare "the list is cut" "1; 1" "$status; $(grep -c 'put there by somebody else' changed.told)"
is_same "the list is cut" changed

# Killed at 20 moments, alone and with all that it started: what has its name is whole, and the next call does the rest.
began=$(date +%s%N)
out ex timed
took=$((($(date +%s%N) - began) / 1000000))
is_same "another export" timed
for round in {1..20}; do
    rm -rf killed
    setsid examples/export "$OFFICE" ex killed >noise 2>&1 &
    exporting=$!
    sleep "$(awk "BEGIN { print $took * ($round - 0.5) / 20000 }")"
    if [ $((round % 2)) = 0 ]; then
        kill -KILL -- "-$exporting" 2>/dev/null || true
    else
        kill -KILL "$exporting" 2>/dev/null || true
    fi
    ended "$exporting" 2>/dev/null || true
    mkdir -p killed/deposits
    for folder in killed/deposits/*; do
        [ ! -e "$folder" ] || diff -r "whole${folder#killed}" "$folder" || fail "killed, and $folder isn't whole"
    done
    out ex killed
    compare "the call after a kill at moment $round" "0; " "$status; $(cat killed.told)"
    is_same "killed at moment $round" killed
done

# A caller who may not fetch some, nor see the holds of others; one who sees nothing; one who sees what can't be a
# folder.
out half half
compare "what may not be fetched" "1; $((count - 2 - 3)) of $((count - 2)) deposits that half may list are in half" \
    "$status; $(tail -n 1 half.said)"
denied='403 {"error":"Denied","rule":3}'
compare "each of it is told" $'4\tBOTH.1: '"$denied"$'\n6\tNONE.1: '"$denied"$'\n16\tLARGE.1: '"$denied" \
    "$(cat half/missing)"
exported registers half "$OFFICE" half
out nobody nobody
compare "a caller who sees nothing" "1; no deposit is listed for nobody" "$status; $(cat nobody.told)"
out anna all
counted="$((count - 2)) of $((count - 2))"
compare "what can't be a folder" \
    "1; $counted deposits that anna may list are in all; $counted: LONG.1 is forms/$count.bagset: device" \
    "$status; $(tail -n 1 all.said); $(sed 's/device .*/device/' all.told)"
cmp bags/long.bagset "all/forms/$count.bagset"
exported registers all "$OFFICE" anna

# The office goes on: one is destroyed, one is new.
anna -X PUT -d '{"years":0}' "$OFFICE/classes/y1" >noise
anna -X DELETE "$OFFICE/deposits/5" >noise
./depot pack bags/plain form >noise
anna --data-binary @form "$OFFICE/deposits?collection=maps&class=y10&accession=NEW.1&closed=2025-01-01" >noise
cp -a whole later
out ex later
compare "one was destroyed, one is new" "0; $listed of $listed: NEW.1 is deposits/$((count + 1))
$((listed - 1)) of $listed were exported before, and are as they were
deposit 5 was destroyed on 2025-02-28: what was exported of it is aside/5-destroyed now, and is to be removed
$listed of $listed deposits that ex may list are in later" "$status; $(cat later.said)"
printf 'bags/plain\tmaps\ty10\tNEW.1\t2025-01-01\n' >>all.list
exported folders all.list later "$OFFICE" ex
exported registers later "$OFFICE" ex

# An office that is closed for a while, or for too long; one that is away; a second call; a full disk, which is made
# larger.
touch CLOSED
(sleep 2; rm CLOSED) &
out ex closed "$proxy"
compare "closed for a while" "0; 503 {\"error\":\"Closed\"}: waiting, at most 1800 seconds" \
    "$status; $(cat closed.told)"
touch CLOSED
WAITING=1 out ex closed "$proxy"
compare "closed for too long" "3; 503 {\"error\":\"Closed\"} for 1 seconds
stopped; call again to go on" "$status; $(tail -n +2 closed.told)"
rm CLOSED
out ex away http://127.0.0.1:1
compare "an office that is away" "3; the request failed (000)" "$status; $(head -n 1 away.told | cut -c 1-24)"
exec 8>>closed/exported
flock 8
out ex closed
exec 8>&-
compare "a second call" "3; another call exports into closed" "$status; $(head -n 1 closed.told)"
mkdir disk
# shellcheck disable=SC2016 # the other shell expands it
apart --mount bash -c '
    mount -t tmpfs -o size=1m disk disk
    status=0
    examples/export "$OFFICE" ex disk/out >full.said 2>full.told || status=$?
    echo "$status; $(tail -n 1 full.told)"
    mount -o remount,size=100m disk
    examples/export "$OFFICE" ex disk/out >more.said 2>more.told || echo "status $?"
    cat more.told
    cp -a disk/out full
' >disked
compare "a full disk, and then a larger one" "3; stopped: 9 of $listed deposits are in disk/out; call again to go on" \
    "$(cat disked)"
grep -q 'No space left on device\|disk full' full.told || fail "the disk is full, and this was said: $(cat full.told)"
diff -r later/deposits full/deposits
cmp later/deposits.csv full/deposits.csv

# A store whose bytes rotted; an office that was restored, and has another deposit under the number.
stop_office
end_process "$shutting"
cp copy.db rotten.db
exported rot rotten.db SHA512.1
serve rotten.db 2025-02-28
cp -a whole rotten
out ex rotten
compare "what is here is kept, whatever rots" "0; " "$status; $(cat rotten.told)"
rm -r rotten
out ex rotten
compare "a bag that rotted" \
    "1; 3 of $listed: SHA512.1 is missing: 503 {\"error\":\"Store\"}: what is stored of it was altered" \
    "$status; $(cat rotten.told)"
stop_office
sqlite3 rotten.db \
    "UPDATE content SET bytes = zeroblob(size)
        WHERE id = (SELECT content FROM file WHERE deposit = 1 AND path = 'bagit.txt')"
serve rotten.db 2025-02-28
mkdir -p blind/deposits/1
out blind blind
compare "what isn't listed any more, and rotted" "1; no deposit is listed for blind
deposit 1 isn't listed any more (503), and is aside/1-unlisted now" "$status; $(cat blind.told)"
stop_office
rm -f rotten.db*
./depot policy rotten.db policy.toml >noise
serve rotten.db 2025-02-28
anna -X PUT -d '{"years":1}' "$OFFICE/classes/y1" >noise
anna -X PUT "$OFFICE/collections/maps" >noise
anna --data-binary @form "$OFFICE/deposits?collection=maps&class=y1&accession=NEW.1&closed=2025-01-01" >noise
cp -a whole restored
out ex restored
compare "another deposit under the number" \
    "1; deposits/1 was of PLAIN.1, and is aside/1-other now; 1 of 1: NEW.1 is deposits/1; 1" \
    "$status; $(head -n 1 restored.told); $(head -n 1 restored.said); $(ls restored/deposits)"
stop_office

# Invalid arguments: one line, and nothing changed.
for words in "" "$OFFICE" "$OFFICE ex" "$OFFICE ex all.list"; do
    status=0
    # shellcheck disable=SC2086 # they are words
    examples/export $words >noise 2>why || status=$?
    compare "words: $words" \
        "2; Usage: export OFFICE CALLER FOLDER [ARGUMENT..], where FOLDER is a folder or isn't there yet" \
        "$status; $(cat why)"
done
for words in "office ex unmade" "$OFFICE Ex unmade"; do
    status=0
    # shellcheck disable=SC2086 # they are words
    examples/export $words >noise 2>why || status=$?
    compare "words: $words" "2; 1" "$status; $(grep -cE '^(OFFICE|CALLER) is ' why)"
done
cp copy.db logged.db
printf log >logged.db-wal
for copy in none.db logged.db; do
    status=0
    COPY=$copy examples/export "$OFFICE" ex unmade >noise 2>why || status=$?
    compare "COPY is $copy" "2; 1" "$status; $(grep -c '' why)"
done
status=0
DEPOT=./none examples/export "$OFFICE" ex unmade >noise 2>why || status=$?
compare "no program" "2; there is no program ./none; DEPOT names it" "$status; $(cat why)"
compare "nothing was made" "" "$(find . -maxdepth 1 -name unmade)"
echo "export: $cases cases: $listed deposits of $((count - 1)) kinds are folders as they were deposited, $has_bagit;" \
    "killed 20 times, a second office has them"
