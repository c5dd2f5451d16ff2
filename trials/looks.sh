#!/usr/bin/env bash
# Shows what the script `first-look` does with its arguments, what it prints and its status. A copy of it calls a
# stand-in for `rt`, which notes each call, and runs each case by a program that packs, checks and answers as far as
# these cases need it. `walkthrough.sh` compares what the real one prints.
set -eu
top=$(readlink -f "$(dirname "$(readlink -f "$0")")/..")
. "$top/trials/cases.sh"
. "$top/trials/processes.sh"
make_room
export ROOM=$room
tree=$room/tree

mkdir -p "$room"/kit "$room"/bare "$tree"/crates/depot "$room/a folder" "$room/odd"
cp "$top/first-look" "$tree/first-look"
cp -r "$top/examples" "$tree/examples"
echo 'a bag' >"$room/a folder/bagit.txt"
ln -s nowhere "$room/odd/link"
cp "$top/examples/bag-a.bagset" "$room/-a form"
echo 'no bag' >"$room/cut"
cat >"$room/kit/rt" <<'STUB'
#!/usr/bin/env bash
# A stand-in for `rt try --seconds N --cases FOLDER --data ..`, called in the folder of the program's crate.
set -eu
echo "$(basename "$PWD") $1 $2 $4" >>"$ROOM/calls"
[ ! -e "$ROOM/fails" ] || { echo "a type is wrong" >&2; exit 1; }
program() {
    case $1 in
    pack) [ -f "$2/bagit.txt" ] || { echo "depot: $2: an odd entry" >&2; return 1; }
        { echo BAGSET; cat "$2/bagit.txt"; } >"$3" && echo "packed 1 files" ;;
    check) [ "$(head -c 6 "$2")" = BAGSET ] || { echo "L1" && echo "depot: no bag" >&2; return 1; }
        echo "valid $(basename "$2" | tr -d 0-9)" ;;
    replay) cat "$ROOM/answers" ;;
    esac
}
for given in "$5"/*.args; do
    name=$(basename "$given" .args)
    mapfile -t words <"$given"
    echo "== $name"
    status=0
    program "${words[@]}" <"${given%.args}" || status=$?
    echo "case=$name run=ended status=$status steps=1" >&2
done
STUB
chmod +x "$room/kit/rt"
for tool in bash readlink dirname; do
    ln -s "$(command -v "$tool")" "$room/bare/$tool"
done

# What is looked at; the status; how often the program is compiled; what is printed, and what is said beside the first
# and last lines, which say that it compiles and that nothing is proved; the arguments.
look() {
    local status=0 said
    : >"$room/calls"
    (cd "$room" && PATH=${path-$room/kit:$PATH} "$tree/first-look" "${@:6}" >"$room/out" 2>"$room/err") || status=$?
    compare "$1: the status" "$2" "$status"
    compare "$1: the calls" "$3" "$(grep -c '^depot try --seconds --cases$' "$room/calls" || true)"
    compare "$1: what is printed" "$4" "$(cat "$room/out")"
    said=$(sed "s#$room/##g; /^first-look: \(the kit's .*, and is there\|compiling\|nothing of it\)/d" "$room/err")
    compare "$1: what is said" "$5" "$said"
}

# A day of three requests. The first is answered by a body of several lines, one of them empty and one like the first
# line of an answer's record, the second by a body that is one line, the third by none.
printf '%s\r\nDepot-Caller: %s\r\n\r\n%s\n' >"$tree/examples/day.records" \
    $'REQ 2024-03-01 52\nGET /deposits/1/bag HTTP/1.1' anna "" \
    $'REQ 2024-03-02 75\nPOST /holds HTTP/1.1' carl '{"deposit":1,"matter":"Case 7"}' \
    $'REQ 2024-03-03 49\nHEAD /deposits/1 HTTP/1.1' anna ""
for answer in $'200 OK\r\n\r\nBAGSET 1\nFILE 6 9\ndata/ab\n\nANS 0\n\nEND\n' \
    $'201 Created\r\n\r\n{"hold":1}' $'404 Not Found\r\n\r\n'; do
    printf 'ANS %d\nHTTP/1.1 %s\n' $((9 + ${#answer})) "$answer"
done >"$room/answers"

look "the example bag and the example day" 0 1 $'the example bag:\nvalid -\nthe example day:
2024-03-01 anna: GET /deposits/1/bag\n    BAGSET 1\n    FILE 6 9\n    data/ab\n    \n    ANS 0\n    \n    END
2024-03-02 carl: POST /holds {"deposit":1,"matter":"Case 7"}\n    {"hold":1}
2024-03-03 anna: HEAD /deposits/1' ""
look "a form" 0 1 $'./-a form:\nvalid -a form' "" "./-a form"
look "a form by a whole path, and after -" 0 1 $'-a form:\nvalid -a form' "" "-a form"
look "a folder" 0 1 $'a folder:\npacked 1 files\nvalid .bagset' "" "a folder"
look "a form that is no bag" 1 1 $'cut:\nL1' "depot: no bag" cut
look "several, of which one can't be packed and one is no bag" 1 1 \
    $'odd:\na folder:\npacked 1 files\nvalid .bagset\ncut:\nL1\n-a form:\nvalid -a form' \
    $'depot: odd: an odd entry\ndepot: no bag' odd "a folder" cut "-a form"
look "a word that names nothing" 2 0 "" "first-look: missing is neither a folder nor a file that can be read" \
    "a folder" missing
look "two of them" 2 0 "" \
    "first-look: x is neither a folder nor a file that can be read
first-look: y is neither a folder nor a file that can be read" x y
look "an end of line in a name" 2 0 "" "first-look: a name with an end of line can't be passed on: a b" $'a\nb'
touch "$room/fails"
look "a program that doesn't compile" 3 1 "cut:" \
    $'a type is wrong\nfirst-look: the program could not be compiled or run: its messages are above' cut
rm "$room/fails"
path=$room/bare
look "no kit" 3 0 "" \
    "first-look: the kit's command rt is looked for on the PATH, and isn't there: README.md says what it is" cut
echo "looks: $cases cases: first-look does what its arguments ask for"
