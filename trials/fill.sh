#!/usr/bin/env bash
# Fills a new office from bags on disk by `examples/fill`, as docs/OPERATING.md says, through what may happen meanwhile:
# the call is killed, the office is killed and started again, the office can't be reached, an answer is lost. Then each
# bag is in the office once, byte for byte, and those that can't be taken in are named, each with its reason. A bag that
# is mended goes in by the next call. After a restore the bags that the office lost are deposited again, whatever it has
# under their numbers; a call that believes LIST.done is seen to lose them. It names a bag that was destroyed, and one
# of which a byte was flipped in the store. While an office is closed, it waits; `shuts.py` plays that office.
# Argument: the program; if left out, that of DEPOT, or the repository's own.
set -eu
top=$(readlink -f "$(dirname "$(readlink -f "$0")")/..")
. "$top/trials/needs.sh"
. "$top/trials/cases.sh"
. "$top/trials/processes.sh"
. "$top/trials/offices.sh"
. "$top/trials/pages.sh"
needs curl python3
needs_program "$@"
make_room
cd "$room"
ln -s "$program" depot
ln -s "$top/examples" examples
day=2024-03-02
count=60

# A bag in a folder, with a payload that no other has.
make_one() {
    { printf 'bag %s\n' "$1"; head -c 20000 /dev/urandom; } | make_bag "$1"
}

# Has the office serve, always at the same port.
own_port=0
serve() {
    serve_office office.db "$day" '' "$own_port" 2>told || fail "$(cat told)"
    own_port=$port
    export OFFICE=$address
}

# Runs the loop by the command of the page, and sets `status`.
fill() {
    status=0
    timeout 300 bash -c "$loop" >filled 2>refusals || status=$?
}

# Waits until this number of bags is in the office.
await_bags() {
    local end=$((SECONDS + 60))
    until [ "$({ wc -l <bags.list.done; } 2>/dev/null || echo 0)" -ge "$1" ] || [ "$SECONDS" -ge "$end" ]; do
        sleep 0.02
    done
}

# How many deposits the office has.
deposits() {
    anna "$OFFICE/deposits" | count_listed
}

section="Filling an office from bags on disk"
loop=$(block "$section" 3)
for number in $(seq -w "$count"); do make_one "bags/$number"; done
follow "$section" 2
compare "the list that the page makes" "$count" "$(grep -cP '^bags/(\d\d)\tmaps\ty1\tA-\1\t2024-02-29$' bags.list)"
# One is in a folder with blanks; six can't be taken in.
mv bags/05 'bags/05 of the maps'
printf x >>bags/07/data/a
touch "$(printf 'bags/11/data/\377')"
rm -r bags/13
sed -i -e '5s/05/05 of the maps/' -e '17s/A-17/A-16/' -e '19s/\t2024-02-29//' -e '23s/y1/none/' bags.list

./depot policy office.db "$top/examples/policy.toml" >/dev/null
serve
follow "$section" 1 >made

# The call is killed in the middle.
bash -c "exec env $loop" >filled 2>refusals &
filling=$!
await_bags 10
end_process "$filling"
before=$(grep -c '' bags.list.done)
if [ "$before" -lt 10 ] || [ "$before" -ge 30 ]; then
    fail "the call was to be killed in the middle, and not after $before bags"
fi

# The office is killed in the middle of the next call, and started again: the call goes on.
fill &
filling=$!
await_bags $((before + 10))
kill_office
[ "$(grep -c '' bags.list.done)" -lt 54 ] || fail "the office was to be killed in the middle"
sleep 1
serve
ended "$filling" || true
compare "the last line of a call during which the office was started again" \
    "54 of $count bags are in the office, and 6 were refused" \
    "$(tail -n 1 filled)"
cat >reasons <<END
7	A-07: invalid B17 manifest-sha256.txt data/a
11	A-11: unpackable
13	A-13: device
17	A-16: 409 {"deposit":
19	A-19: the line isn't FOLDER, COLLECTION, CLASS, ACCESSION and CLOSED, with a tab between them
23	A-23: 404 {"error":"NoSuch","what":"class"}
END
compare "the refusals" 6 "$(grep -c '' bags.list.refused)"
while IFS= read -r wanted <&3 && IFS= read -r found <&4; do
    compare "a refusal" "$wanted" "${found:0:${#wanted}}"
done 3<reasons 4<bags.list.refused
compare "the deposits" 54 "$(deposits)"

# A call that has nothing to do; one whose office is away.
fill
compare "another call" "1; 54 of $count bags are in the office, and 6 were refused" "$status; $(tail -n 1 filled)"
compare "it deposits nothing" 54 "$(deposits)"
# An answer that was lost: what the office has isn't deposited again.
sed -i '$d' bags.list.done
fill
compare "a call after an answer was lost" "1; 54 of $count bags are in the office, and 6 were refused" \
    "$status; $(tail -n 1 filled)"
compare "it finds the deposit" 54 "$(deposits)"

# What was refused is mended.
(cd bags/07 && sha256sum data/a >manifest-sha256.txt)
rm "$(printf 'bags/11/data/\377')"
make_one bags/13
sed -i -e '17s/A-16/A-17/' -e '19s/$/\t2024-02-29/' -e '23s/none/y1/' bags.list
fill
compare "all are mended" "0; $count of $count bags are in the office, and 0 were refused" "$status; $(tail -n 1 filled)"
compare "all deposits" "$count" "$(deposits)"
while IFS=$'\t' read -r number folder _ <&3; do
    ./depot pack "$folder" form >/dev/null
    anna "$OFFICE/deposits/$number/bag" -o kept
    cmp form kept || fail "deposit $number isn't the bag of $folder"
    rm form
done 3<bags.list.done
cases=$((cases + count))

# Further arguments go to curl: here a second name of the caller, which the office refuses.
printf 'bags/01\tmaps\ty1\tA-61\t2024-02-29\n' >more.list
status=0
DEPOT=./depot examples/fill "$OFFICE" anna more.list -H 'Depot-Caller: carl' >filled 2>refusals || status=$?
compare "further arguments" '1; 1	A-61: 400 {"error":"TwoCallers"}' "$status; $(cat more.list.refused)"

# An office that can't be reached.
stop_office
printf 'bags/01\tmaps\ty1\tA-61\t2024-02-29\n' >>bags.list
fill
compare "the office is away" \
    "3; stopped: what bags.list.done has is still to be compared with the office; call again to go on" \
    "$status; $(tail -n 1 refusals)"
rm -f more.list* bags.list*

# Fills from eight.list: `fill_eight [CALLER [ADDRESS]]`, by the script of the variable FILL, with WAITING if it is set.
fill_eight() {
    status=0
    DEPOT=./depot timeout 120 "${FILL:-examples/fill}" "${2:-$OFFICE}" "${1:-anna}" eight.list >filled 2>refusals ||
        status=$?
}

# Puts a backup in the place of the office, and has it serve.
restore() {
    stop_office
    rm -f office.db office.db-wal
    cp "$1" office.db
    serve
}

# The office is as it was before the eight bags, and there is no LIST.done.
begin_again() {
    restore empty.db
    rm -f eight.list.* asked
}

# Somebody else's deposit: `other ACCESSION BAG`.
other() {
    rm -f form
    ./depot pack "$2" form >/dev/null
    anna --data-binary @form \
        "$OFFICE/deposits?collection=maps&class=y1&accession=$1&closed=2024-02-29" >made
    compare "another's deposit" '{"deposit":' "$(cut -c 1-11 made)"
}

# All deposits of class y1 are due.
due_now() {
    anna -X PUT -d '{"years":0}' "$OFFICE/classes/y1" >made
}
destroy() {
    anna -X DELETE "$OFFICE/deposits/$1" >made
    compare "deposit $1 is destroyed" "{\"day\":\"$day\",\"destroyed\":$1}" "$(cat made)"
}

# LIST.done has the eight, each with the number of the deposit that is its bag, byte for byte.
are_eight() {
    local number folder
    compare "$1: the bags of LIST.done" "$(cut -f 1 eight.list | sort)" "$(cut -f 2 eight.list.done | sort)"
    compare "$1: their numbers" 8 "$(cut -f 1 eight.list.done | sort -u | grep -c '')"
    while IFS=$'\t' read -r number folder _ <&3; do
        rm -f form
        ./depot pack "$folder" form >/dev/null
        anna "$OFFICE/deposits/$number/bag" -o kept
        cmp form kept || fail "$1: deposit $number isn't the bag of $folder"
        cases=$((cases + 1))
    done 3<eight.list.done
}
all="8 of 8 bags are in the office, and 0 were refused"

# A backup from before eight bags are deposited.
rm -f office.db*
./depot policy office.db "$top/examples/policy.toml" >/dev/null
serve
follow "$section" 1 >made
stop_office
./depot ask office.db "$day" </dev/null >/dev/null
cp office.db empty.db
serve
for number in 01 02 03 04 06 07 08 09; do
    printf 'bags/%s\tmaps\ty1\tA-%s\t2024-02-29\n' "$number" "$number"
done >eight.list
fill_eight
compare "eight bags" "0; $all" "$status; $(tail -n 1 filled)"
cp eight.list.done believed

# The control: a call that believes LIST.done says that all are there, and none is.
mkdir control
cp "$top/examples/asks" control/
sed 's/^is_recorded() {$/is_recorded() { return 0/' "$top/examples/fill" >control/fill
chmod +x control/fill
restore empty.db
FILL=control/fill fill_eight
compare "the control believes LIST.done" "0; $all; 0" "$status; $(tail -n 1 filled); $(deposits)"

fill_eight
compare "after a restore" "0; $all; 8" "$status; $(tail -n 1 filled); $(deposits)"
compare "each is told" 8 "$(grep -cE "^A-[0-9]+ isn't deposit [0-9]+ any more$" refusals)"
are_eight "after a restore"
fill_eight
compare "a call after it" "0; $all; 8; " "$status; $(tail -n 1 filled); $(deposits); $(cat refusals)"

# A caller who may not see records; an address at which no office answers. Nothing is believed, and nothing changed.
cp eight.list.done before
fill_eight carl
compare "a caller without \`record\`" \
    "3; carl can't see the record of deposit 1: 403 {\"error\":\"Denied\",\"rule\":\"default\"}" \
    "$status; $(head -n 1 refusals)"
fill_eight anna "$OFFICE/office"
compare "another address" "3; anna can't see the record of deposit 1: 404 {\"error\":\"NoRoute\"}" \
    "$status; $(head -n 1 refusals)"
cmp before eight.list.done

# The numbers of LIST.done are others' deposits, one of them destroyed; two accessions are taken, one with as many
# bytes.
restore empty.db
for number in 1 2 3; do other "B-$number" bags/10; done
printf more >>bags/12/data/a
(cd bags/12 && sha256sum data/a >manifest-sha256.txt)
other A-06 bags/12
other A-04 bags/10
due_now
destroy 3
cp believed eight.list.done
fill_eight
compare "numbers that are others' deposits" "1; 6 of 8 bags are in the office, and 2 were refused; 10" \
    "$status; $(tail -n 1 filled); $(deposits)"
compare "those whose accession is taken" \
    $'4\tA-04: 409 {"deposit":5,"error":"Taken"}\n5\tA-06: 409 {"deposit":4,"error":"Taken"}' \
    "$(cat eight.list.refused)"

# One is destroyed: by LIST.done, by the accession alone, and after its folder was thrown away.
begin_again
due_now
fill_eight
are_eight "another restore"
destroy 5
for case in LIST.done accession folder; do
    [ "$case" != accession ] || mv eight.list.done before
    if [ "$case" = folder ]; then
        mv before eight.list.done
        mv bags/06 thrown
    fi
    fill_eight
    gone="destroyed on $day, as deposit 5"
    compare "one was destroyed ($case)" "1; 7 of 8 bags are in the office, and 0 were refused
1 were destroyed, and aren't deposited again; 7; 5 of 8: A-06 was $gone; 5	A-06: $gone" \
        "$status; $(tail -n 2 filled); $(deposits); $(cat refusals); $(cat eight.list.refused)"
done
mv thrown bags/06

# A byte of a payload is flipped in the store, and the answers were lost: that bag is refused at once, and the others
# are found.
begin_again
fill_eight
stop_office
./depot ask office.db "$day" </dev/null >/dev/null
python3 "$top/trials/exported.py" rot office.db A-06 >made
serve
for case in lost again; do
    [ "$case" = again ] || rm -f eight.list.done
    began=$SECONDS
    fill_eight
    altered=$'5\tA-06: 409 {"deposit":5,"error":"Taken"}: what is stored of it was altered'
    compare "a byte was flipped ($case)" "1; 7 of 8 bags are in the office, and 1 were refused; 8; $altered" \
        "$status; $(tail -n 1 filled); $(deposits); $(cat eight.list.refused)"
    [ $((SECONDS - began)) -le 20 ] || fail "it was to be refused at once"
done

# LIST.done is cut before the end of its last line, in a number, and in two lines; it has malformed lines.
for cut in 1 3 60; do
    begin_again
    fill_eight
    truncate -s "-$cut" eight.list.done
    [ "$cut" != 60 ] || printf 'no line\n\n12\tbags/01\tmaps\ty1\tA-01\t2024-02-29\n' >>eight.list.done
    fill_eight
    compare "LIST.done is cut" "0; $all; 8" "$status; $(tail -n 1 filled); $(deposits)"
    are_eight "LIST.done is cut"
done

# The call after a restore is killed at any moment, and so is the next one: each bag is there once.
for moment in 0.05 0.1 0.2 0.3 0.4 0.6 0.8 1.2; do
    restore empty.db
    cp believed eight.list.done
    for again in 1 2; do
        DEPOT=./depot setsid examples/fill "$OFFICE" anna eight.list >filled 2>refusals &
        filling=$!
        sleep "$moment"
        if [ "$again" = 1 ]; then
            kill -KILL -- "-$filling" 2>/dev/null || true
        else
            kill -KILL "$filling" 2>/dev/null || true
        fi
        ended "$filling" 2>/dev/null || true
    done
    fill_eight
    compare "killed after $moment s" "0; $all; 8" "$status; $(tail -n 1 filled); $(deposits)"
    are_eight "killed after $moment s"
done

# An office that is closed for a stop, for a while, again and again, and for too long; a proxy for which it is too much;
# a failure.
shut() {
    rm -f shut
    python3 "$top/trials/shuts.py" "$own_port" . "$1" >shut 2>told &
    shutting=$!
    await_port "$shutting" shut
    proxy=$address
}
begin_again
shut 0
touch CLOSED
(until [ "$(grep -cs ' 503$' asked)" -ge 2 ]; do sleep 0.1; done 2>/dev/null; rm CLOSED) &
opening=$!
fill_eight anna "$proxy"
compare "closed for a while" "0; $all; 8; 503 {\"error\":\"Closed\"}: waiting, at most 1800 seconds" \
    "$status; $(tail -n 1 filled); $(deposits); $(cat refusals)"
ended "$opening"
begin_again
(while sleep 0.3; do touch CLOSED; sleep 0.3; rm CLOSED; done) &
opening=$!
fill_eight anna "$proxy"
end_process "$opening"
compare "closed again and again" "0; $all; 8" "$status; $(tail -n 1 filled); $(deposits)"
begin_again
touch CLOSED
began=$SECONDS
WAITING=2 fill_eight anna "$proxy"
compare "closed for too long" "3; line 1, A-01: 503 {\"error\":\"Closed\"} for 2 seconds; 0" \
    "$status; $(sed -n 2p refusals); $(deposits)"
[ $((SECONDS - began)) -le 20 ] || fail "it was to wait for two seconds"
rm CLOSED
touch FAILS
began=$SECONDS
fill_eight anna "$proxy"
compare "a failure is no stop" "3; line 1, A-01: the request failed (503): {\"error\":\"Store\"}; 0" \
    "$status; $(head -n 1 refusals); $(deposits)"
[ $((SECONDS - began)) -le 60 ] || fail "it was to try for half a minute"
rm FAILS
end_process "$shutting"
begin_again
shut 3
fill_eight anna "$proxy"
compare "too many at once" "0; $all; 8; 429 {\"error\":\"TooMany\"}: waiting, at most 1800 seconds" \
    "$status; $(tail -n 1 filled); $(deposits); $(cat refusals)"
WAITING=soon fill_eight
compare "no number of seconds" \
    "2; WAITING is the seconds to wait at most for an office that is closed, and not 'soon'" "$status; $(cat refusals)"

# Invalid arguments change nothing.
mkdir words
for words in '' "$OFFICE anna" "$OFFICE anna none" "$OFFICE anna ." "ftp://office anna ../eight.list" \
    "$OFFICE Anna ../eight.list"; do
    status=0
    # shellcheck disable=SC2086 # these are words
    (cd words && DEPOT=../depot ../examples/fill $words) >filled 2>refusals || status=$?
    compare "words: $words" "2 1" "$status $(grep -cE '^(Usage: fill |OFFICE is |CALLER is )' refusals)"
done
compare "they leave" "" "$(find words -mindepth 1; find . -name 'none.*' -o -name '..done' -o -name '..refused')"

# A form in place of a folder.
begin_again
./depot pack bags/01 one.bagset >/dev/null
sed -i '1s/^bags.01/one.bagset/' eight.list
fill_eight
compare "a form in place of a folder" "0; $all" "$status; $(tail -n 1 filled)"
anna "$OFFICE/deposits/1/bag" | cmp - one.bagset
echo "fill: $cases cases: a call after each stop goes on, $count bags are in the office once, six were named with" \
    "their reasons, and what a restore took is deposited again"
