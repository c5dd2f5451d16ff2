#!/usr/bin/env bash
# Shows when the script `depot` builds the program, by how many processes, and what it says meanwhile. A copy of it
# works on a tiny tree of crates, where a stand-in for `rt` notes its calls, and makes a program that prints the number
# of the build that made it, and its arguments. A stand-in for `nproc`, and a file in the place of /proc/meminfo, say
# how large the machine is.
set -eu
top=$(readlink -f "$(dirname "$(readlink -f "$0")")/..")
. "$top/trials/cases.sh"
. "$top/trials/processes.sh"
make_room
export ROOM=$room
tree=$room/tree

mkdir -p "$room"/kit/bin "$room"/bare "$tree"/crates/{depot,above,beside,below,apart}/{src,must-fail}
sed "s#/proc/meminfo#$room/memory#" "$top/depot" >"$tree/depot"
chmod +x "$tree/depot"
printf 'depot: above beside below hex\nabove: below\nbeside: hex\nbelow:\napart: below\n' >"$tree/crates.txt"
for crate in depot above beside below apart; do
    echo "// $crate" >"$tree/crates/$crate/src/lib.rt"
done
echo 'kit one' >"$room/kit/KIT-ID"
cat >"$room/kit/bin/rt" <<'STUB'
#!/usr/bin/env bash
# A stand-in for `rt lib --jobs N`, called in the folder of a library, and `rt run -- check FILE`, called in that of the
# program.
set -eu
crate=$(basename "$PWD")
echo "$crate $*" >>"$ROOM/calls"
if [ -e "$ROOM/slow" ]; then
    echo $$ >"$ROOM/slow"
    exec sleep 60
fi
# Whether it is called while `below` goes on.
[ "$crate" != beside ] || { [ -e "$ROOM/below-goes-on" ] && echo yes || echo no; } >"$ROOM/beside-below"
[ "$crate" != below ] || : >"$ROOM/below-goes-on"
sleep 0.5
rm -f "$ROOM/$crate-goes-on"
if [ -e "$ROOM/fails-$crate" ]; then
    echo "a goal is open"
    exit 1
fi
case "$*" in
'lib --jobs '[1-9]*)
    # A library needs those that it uses, and is built over what was kept of it.
    for used in $(sed -n "s/^$crate://p" ../../crates.txt); do
        [ ! -d "../$used" ] || [ -e "../$used/out/rlib/stamp" ] || exit 2
    done
    mkdir -p out/rlib
    echo kept >>out/kept
    : >out/rlib/stamp
    ;;
'run -- check '*)
    [ -e ../below/out/rlib/stamp ] || exit 2
    [ ! -e "$ROOM/fails-run" ] || { echo "clang failed" >&2; exit 1; }
    printf '#!/bin/sh\necho "%s: $*"\n' "$(grep -c '^below lib' "$ROOM/calls")" >out/depot
    chmod +x out/depot
    ;;
*) exit 2 ;;
esac
STUB
cat >"$room/kit/bin/nproc" <<'STUB'
#!/bin/sh
cat "$ROOM/processors"
STUB
chmod +x "$room"/kit/bin/*
# Lets the machine have this number of processors, and this many GB of free memory.
machine() {
    echo "$1" >"$room/processors"
    printf 'MemTotal: 99000000 kB\nMemAvailable: %d kB\n' "$2"000000 >"$room/memory"
}
machine 4 24
# The commands that the script needs as long as nothing is built, and no `rt`.
for tool in bash readlink dirname awk find sort xargs sha256sum cat head mkdir flock; do
    ln -s "$(command -v "$tool")" "$room/bare/$tool"
done
path=$room/kit/bin:$PATH

# How many builds of the program were begun.
builds() {
    grep -c '^below lib' "$room/calls" || true
}

# Calls the script in a tree, with the commands on this script's `path`. A call that takes over a minute is ended.
call() {
    timeout 60 env PATH="$path" "$1/depot" "${@:2}"
}

# What was done, how many builds are begun once the program was called, and which of them made what answers.
expect() {
    local said
    said=$(call "${4:-$tree}" check "a b" 2>"$room/err") || fail "$(cat "$room/err")"
    compare "$1" "$3: check a b, of $2 builds" "$said, of $(builds) builds"
}

# Whether a build goes on that was to end.
goes_on() {
    if [ -s "$room/slow" ] && kill -0 "$(cat "$room/slow")" 2>/dev/null; then echo yes; else echo no; fi
}

depot=$tree/crates/depot below=$tree/crates/below apart=$tree/crates/apart
expect "nothing is built" 1 1
compare "the libraries are proved, and the program is built" "below lib, beside lib, above lib, depot run" \
    "$(cut -d' ' -f-2 "$room/calls" | paste -sd, | sed 's/,/, /g')"
matches "how many at most" '*4 crates, at most 4 at a time*' "$(cat "$room/err")"
compare "two libraries are proved at a time" yes "$(cat "$room/beside-below")"
compare "what the proofs left" "above below beside" \
    "$(cd "$tree/crates" && find . -path './*/out/rlib/stamp' | cut -d/ -f2 | LC_ALL=C sort | paste -sd' ')"
compare "the folders that they ran in" "" "$(ls "$tree/crates/depot/out/depot-rooms")"
expect "nothing has changed" 1 1

# Times, folders and what the program isn't made of don't count.
touch "$below/src/lib.rt"
expect "a source was touched" 1 1
touch -d 2001-01-01 "$below/src/lib.rt"
expect "a source became older" 1 1
cp -r "$tree" "$room/copy"
expect "the tree was copied, with other times" 1 1 "$room/copy"
mkdir "$room/fresh"
cp -r "$tree"/crates.txt "$tree"/depot "$tree"/crates "$room/fresh/"
rm -r "$room/fresh/crates/depot/out"
expect "the tree was copied, without its program" 2 2 "$room/fresh"
expect "the tree is as it was" 2 1

# A change of one byte counts, also where the length and the time stay.
touch -r "$below/src/lib.rt" "$room/time"
echo "// belov" >"$below/src/lib.rt"
touch -r "$room/time" "$below/src/lib.rt"
expect "a byte of a source changed, and neither its length nor its time" 3 3
compare "what was kept of its library goes along" 2 "$(wc -l <"$below/out/kept")"
echo "// more" >"$below/src/more.rt"
expect "a source was added" 4 4
mv "$below/src/more.rt" "$below/src/other.rt"
expect "a source was renamed" 5 5
rm "$below/src/other.rt"
expect "a source was deleted" 6 6
echo 'kit two' >"$room/kit/KIT-ID"
expect "the kit is another" 7 7
sed -i 's/^below:/below: hex/' "$tree/crates.txt"
expect "a crate has one more below it" 8 8

sed -i 's/^apart:.*/apart:/' "$tree/crates.txt"
mkdir -p "$below/out"
for file in "$apart/src/lib.rt" "$below/must-fail/wrong.rt" "$below/out/made.rt" "$below/README.md" "$depot/stdin"; do
    echo changed >>"$file"
done
expect "nothing that the program is made of has changed" 8 8
path=$room/bare expect "there is no kit, and nothing has changed" 8 8

echo "// more" >>"$depot/src/lib.rt"
status=0
said=$(path=$room/bare call "$tree" check 2>"$room/err") || status=$?
compare "there is no kit, and a source has changed" "; 3" "$said; $status"
matches "what it says then" '*the command rt*' "$(cat "$room/err")"
expect "there is a kit again" 9 9

# A build that fails names the crate, and the old program stays.
for fails in 'below a goal is open' 'depot a goal is open' 'run clang failed'; do
    what=${fails%% *}
    crate=${what/run/depot}
    touch "$room/fails-$what"
    echo "// again" >>"$tree/crates/$crate/src/lib.rt"
    status=0
    said=$(call "$tree" check 2>"$room/err") || status=$?
    compare "$what failed" "; 3" "$said; $status"
    compare "the old program stays" "9: old" "$("$depot/out/depot-program" old)"
    for word in "${fails#* }" "could not be built, for its crate $crate"; do
        matches "what it says then" "*$word*" "$(cat "$room/err")"
    done
    rm "$room/fails-$what"
done
expect "a build fails no more" 13 13

echo "// once" >>"$depot/src/lib.rt"
call "$tree" one >"$room/one" 2>/dev/null &
first=$!
call "$tree" two >"$room/two" 2>/dev/null
ended "$first"
compare "two calls at once" "14: one 14: two, of 14 builds" "$(cat "$room/one") $(cat "$room/two"), of $(builds) builds"

# What is said of a build that takes long: here, that it takes half a second is enough.
sed -i 's/^every=.*/every=0/' "$tree/depot"
echo "// slowly" >>"$below/src/lib.rt"
expect "a build tells how far it is" 15 15
for said in '4 crates, at most [1-9]' '0 of 4 crates done; under way: *below' '2 of 4 crates done; under way: above' \
    '3 of 4 crates done; under way: depot'; do
    matches "what a build that takes long says" "*$said*" "$(cat "$room/err")"
done

# A call that is broken off ends its build, and so does one whose messages nobody reads any more.
: >"$room/slow"
echo "// once more" >>"$below/src/lib.rt"
kept=$(wc -l <"$below/out/kept")
env PATH="$path" "$tree/depot" check >"$room/one" 2>/dev/null &
first=$!
await "$first" "$room/slow" .
kill -TERM "$first"
status=0
ended "$first" || status=$?
compare "a call was broken off" 130 "$status"
compare "its build goes on" no "$(goes_on)"
compare "what was kept of the library stays" "$kept" "$(wc -l <"$below/out/kept")"
: >"$room/slow"
call "$tree" check 2>&1 | head -n 1 >"$room/one"
compare "the build of a call whose messages nobody reads goes on" no "$(goes_on)"
rm "$room/slow"
expect "the next call builds" 18 18

rm "$depot/out/depot-program"
touch "$room/fails-depot"
status=0
said=$(call "$tree" check 2>"$room/err") || status=$?
compare "a build failed, and there is no program" "; 3, of 19 builds" "$said; $status, of $(builds) builds"
rm "$room/fails-depot"

# By how many processes each library is proved, and whether two are at a time: by the processors, and by the free
# memory, of which a process needs 5 GB. Two libraries can begin at once, and the third after both.
sed -i 's/^above:.*/above: below beside/' "$tree/crates.txt"
shares() { # PROCESSORS GB WANTED
    machine "$1" "$2"
    echo "// $1 and $2" >>"$below/src/lib.rt"
    call "$tree" check >/dev/null 2>"$room/err" || fail "$(cat "$room/err")"
    compare "the processes by $1 processors and $2 GB" "$3" "$(tail -n 4 "$room/calls" | sed -n 's/ lib --jobs / /p' |
        paste -sd,), two at a time: $(cat "$room/beside-below")"
}
shares 4 24 'below 2,beside 2,above 4, two at a time: yes'
shares 2 24 'below 1,beside 1,above 2, two at a time: yes'
shares 1 24 'below 1,beside 1,above 1, two at a time: no'
shares 4 16 'below 1,beside 2,above 3, two at a time: yes'
shares 4 11 'below 1,beside 1,above 2, two at a time: yes'
shares 4 9 'below 1,beside 1,above 1, two at a time: no'
shares 4 1 'below 1,beside 1,above 1, two at a time: no'
echo "rebuilds: $cases cases of calls with $(builds) builds, each where it is wanted and nowhere else; where one" \
    "fails the old program stays"
