#!/usr/bin/env bash
# Asks an office each example of docs/HTTP.md, in the order of the page: each route, what the desk refuses and what the
# office refuses. A new office is made and served as the page says, on a port that the machine picks. Each answer is
# compared with the page's: its status and its body (of the desk's refusals the name). Then once more with a policy of
# version 2: the rules of the page's policy count on the page's day alone, and two more rules deny everything until the
# day before, and from the day after on. Python stands in for `nc`.
# Argument: the program; if left out, that of DEPOT, or the repository's own.
set -eu
top=$(readlink -f "$(dirname "$(readlink -f "$0")")/..")
. "$top/trials/needs.sh"
. "$top/trials/cases.sh"
. "$top/trials/processes.sh"
. "$top/trials/offices.sh"
needs curl python3
needs_program "$@"
make_room
cp -a "$top/examples" "$room/examples"
cd "$room"

# The requests of a section of the page, a line each with its answer: REQUEST TAB ANSWER.
examples() {
    python3 - "$top/docs/HTTP.md" "$1" <<'SCRIPT'
import re
import sys

page, heading = open(sys.argv[1], encoding="utf-8").read(), sys.argv[2]
part = page.split(f"\n## {heading}\n", 1)[1].split("\n## ", 1)[0]
request = None
for block in re.findall(r"^```\n(.*?)^```$", part, re.M | re.S):
    for line in block.replace("\\\n     ", "").splitlines():
        if line.startswith("# "):
            print(f"{request}\t{line[2:]}")
        elif line.startswith(("curl ", "printf ")):
            request = line
            if cut := re.search(r" +# (\d.*)$", line):
                print(f"{line[:cut.start()]}\t{cut[1]}")
SCRIPT
}

curl() { command curl -sS --max-time 60 -w '\n%{http_code}' "$@"; }

# Sends what comes, ends its side, and prints what is answered.
nc() {
    python3 -c '
import socket, sys
peer = socket.create_connection((sys.argv[2], int(sys.argv[3])), timeout=60)
peer.sendall(sys.stdin.buffer.read())
peer.shutdown(socket.SHUT_WR)
while chunk := peer.recv(65536):
    sys.stdout.buffer.write(chunk)
' "$@"
}

# The policy of the page with days.
sed -e 's/^version = 1/version = 2/' -e 's/^class = .*/&\nfirst = "2024-03-01"\nlast = "2024-03-01"/' \
    examples/policy.toml >dated.toml
for days in 'last = "2024-02-29"' 'first = "2024-03-02"'; do
    printf '\n[[rule]]\neffect = "deny"\nrole = "*"\naction = "*"\ncollection = "*"\nclass = "*"\n%s\n' "$days"
done >others
sed -i '/^collection = "tax"/,/^last/ { /^last/r others
}' dated.toml

# Asks all of a new office with this policy, and what its install is answered with.
page() {
    local section request wanted came body allow said asked=0
    rm -rf office.db* back.bagset said
    said=$("$program" policy office.db "$1")
    compare "the install of $1" "$2" "$said"
    serve_office office.db 2024-03-01
    # shellcheck disable=SC2034 # the page's commands use it
    OFFICE=$address
    for section in 'Each route by an example' 'What the desk refuses' 'What the office refuses'; do
        while IFS=$'\t' read -r request wanted <&3; do
            came=$(eval "${request//127.0.0.1 8080/127.0.0.1 $port}" 2>&1 </dev/null | tr -d '\r')
            if [[ $request == printf* ]]; then
                came="$(sed -n '1s/HTTP.1.1 \([0-9]*\).*/\1/p' <<<"$came") $(tail -n 1 <<<"$came")"
            else
                body=$(sed '$d' <<<"$came")
                allow=$(sed -n 's/^Allow: //p' <<<"$body")
                came="$(tail -n 1 <<<"$came") $(tail -n 1 <<<"$body")${allow:+, and Allow: $allow}"
            fi
            if [ "$section" = 'What the desk refuses' ]; then
                # shellcheck disable=SC2001 # a pattern with a part that stays
                came=$(sed 's/{"error":"\([A-Za-z]*\)"}/\1/' <<<"$came")
            fi
            if [[ $request == *back.bagset* ]] && cmp -s back.bagset examples/bag-a.bagset; then
                came="200, and back.bagset is what was deposited, byte for byte"
            fi
            compare "docs/HTTP.md: $request" "${wanted#E[0-9]*: }" "$came"
            asked=$((asked + 1))
        done 3< <(examples "$section")
    done
    stop_office
    [ "$asked" -ge 51 ] || fail "docs/HTTP.md has $asked examples, and 51 or more are wanted"
}

page examples/policy.toml 'installed 3 rules 2 callers'
page dated.toml 'installed 5 rules 2 callers'
echo "http: $cases cases: the examples of docs/HTTP.md are answered as the page says, under a policy of version 1 and" \
    "one of version 2"
# Where Python has the modules for it, the page and the program are compared with docs/openapi.yaml too.
python3 "$top/trials/openapi.py" "$program" || [ $? -eq 3 ]
