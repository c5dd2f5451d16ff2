#!/usr/bin/env bash
# Puts nginx and Caddy, as the system installs them, in front of `depot serve`, each with its file of `examples/` (other
# ports, names and passwords put in), over TLS on 127.0.0.1. Of both it shows:
# - the name of the caller is the user's, however a client spells a field `Depot-Caller` of its own; the proxy refuses a
#   user whose name can't be a caller, and doesn't serve that user as a stranger; users come and go while an office
#   serves;
# - uploads in chunks (but with Caddy before 2.7), of 10 MiB, with `Expect` and over a connection that stays are taken;
#   a slow upload and a slow download hold nobody else up;
# - what another site's page asks is refused, for each method and each combination of `Origin` and `Sec-Fetch-Site`;
# - each answer, and each error of the proxy's own, which is JSON, carries the fields that keep it from being a page.
#   (Of heads that it can't read Caddy's do not: nothing here asks for them.)
# - each request has its line in the log, also when the client hangs up, and while the log is rotated; it has no
#   password;
# - the office gets the target that the client wrote, also after a prefix, and no spelling of one office's prefix is the
#   other's;
# - (nginx) a user has one request at a time, and a user's flood keeps nobody else waiting; `examples/fill` isn't
#   refused.
# Controls show that the same trials fail without the lines that make the difference.
# Argument: the program; if left out, that of DEPOT, or the repository's own.
# MIB is the size of the large bag, for a slow program.
# shellcheck disable=SC2016 # what `sed` edits has variables of nginx
set -eu
top=$(readlink -f "$(dirname "$(readlink -f "$0")")/..")
. "$top/trials/needs.sh"
. "$top/trials/cases.sh"
. "$top/trials/processes.sh"
. "$top/trials/offices.sh"
. "$top/trials/proxies.sh"
needs nginx caddy openssl curl python3 logrotate
needs_program "$@"
make_room
cd "$room"
day=2024-03-01
export PASSWORD=$password
users=(anna carl eve Berta 'long-name-long-name-long-name-long-name-x')

# ---- the office

cat >policy.toml <<END
version = 1

[callers]
anna = "archivist"
carl = "archivist"

[[rule]]
effect = "allow"
role = "archivist"
action = "*"
collection = "*"
class = "*"

[[rule]]
effect = "allow"
role = "stranger"
action = "list"
collection = "*"
class = "*"
END
"$program" policy office.db policy.toml >/dev/null
serve_office office.db "$day" 2>office.log || fail "the office doesn't serve: $(cat office.log)"
desk=$port

# Bags of 10 MiB and of 1 MiB, one that a flood asks for, and their transfer forms.
python3 - <<END
import hashlib, os
for name, size in (("large", 16 * ${MIB:-10}), ("medium", 16), ("asked", ${MIB:-10} * 8 // 5)):
    os.makedirs(name + "/data")
    content = os.urandom(1 << 16) * size
    open(name + "/data/scan", "wb").write(content)
    open(name + "/bagit.txt", "w").write("BagIt-Version: 1.0\nTag-File-Character-Encoding: UTF-8\n")
    open(name + "/manifest-sha256.txt", "w").write(hashlib.sha256(content).hexdigest() + "  data/scan\n")
END
for size in large medium asked; do
    "$program" pack $size $size.bagset >/dev/null
done
cp "$top/examples/bag-a.bagset" small.bagset

# Deposit 1, which the holds of proxy_client.py cover.
asks() {
    curl -sS -o /dev/null -H 'Depot-Caller: anna' "$@"
}
asks -X PUT -d '{"years":1}' "http://127.0.0.1:$desk/classes/y2"
asks -X PUT "http://127.0.0.1:$desk/collections/maps"
asks --data-binary @small.bagset \
    "http://127.0.0.1:$desk/deposits?collection=maps&class=y2&accession=A-1&closed=2024-02-29"

# ---- the cases

# What a user gets: `gets STATUS BODY USER TARGET ARGUMENT..`, where the arguments are those of curl.
gets() {
    local status=$1 body=$2 user=$3 target=$4 said
    shift 4
    said=$(curl -sS --max-time 300 --cacert office.crt -u "$user:$password" -w '\n%{http_code} %{content_type}' \
        "$@" "https://localhost:$https$target" 2>&1) || true
    [ "$said" = "$body"$'\n'"$status application/json" ] ||
        fail "$target by $user${*:+ with $*}: $status $body is wanted, and this came: $said"
    cases=$((cases + 1))
}

# Runs a part of proxy_client.py with its arguments, and counts its cases.
part() {
    local said
    said=$(python3 "$top/trials/proxy_client.py" "$@" 2>trouble) || fail "$1: $(tail -n 3 trouble)"
    cases=$((cases + said))
}

# A control: this part fails, and says so.
fails() {
    local wanted=$1
    shift
    if python3 "$top/trials/proxy_client.py" "$@" >/dev/null 2>trouble || ! grep -q "$wanted" trouble; then
        fail "the control of $1: '$wanted' is wanted, and this came: $(tail -n 3 trouble)"
    fi
    cases=$((cases + 1))
}

# Where the next deposit goes, at a proxy.
next() {
    echo "/deposits?collection=maps&class=y1&accession=A-$((last + 1))&closed=2024-02-29"
}

# A deposit that is taken: `deposits BAG ARGUMENT..`, where the arguments are those of curl.
deposits() {
    local bag=$1
    shift
    gets 201 "{\"deposit\":$((last + 1))}" anna "$(next)" --data-binary "@$bag" "$@"
    last=$((last + 1))
}

try_proxy() {
    local field slow large said long holds none='{"holds":[]}' denied='{"error":"Denied","rule":"default"}'
    gets 200 '{"class":"y1","years":1}' anna /classes/y1 -X PUT -d '{"years":1}'
    gets 200 '{"collection":"maps"}' anna /collections/maps -X PUT

    deposits small.bagset

    # a field of the client's own never counts: a stranger may not ask for holds, and anna may. The control: the desk
    # itself goes by the field
    holds=/deposits/$last/holds
    desk_says anna "$none 200"
    desk_says eve "$denied 403"
    desk_says $'x\r\nDepot-Caller: eve' '{"error":"TwoCallers"} 400'
    for field in 'Depot-Caller: ' 'depot-caller: ' 'DEPOT-CALLER: ' 'Depot-caller:' 'dEPOT-cALLER:  ' 'Depot_Caller: ' \
        'Depot-Caller : ' $'Depot-Caller: x\r\nDepot-Caller: '; do
        case $field in
        *' : ') # no field at all: the head is refused, or goes on without it
            refused_or 200 anna "${field}eve"
            refused_or 403 eve "${field}anna"
            ;;
        *) # (over HTTP/2, which Caddy takes, curl writes each name in small letters)
            gets 200 "$none" anna "$holds" --http1.1 -H "${field}eve"
            gets 403 "$denied" eve "$holds" --http1.1 -H "${field}anna"
            ;;
        esac
    done
    gets 200 "$none" anna "$holds" -H 'Depot-Caller: eve'
    gets 403 "$denied" eve "$holds" -H 'Depot-Caller: anna'

    # uploads
    deposits large.bagset
    large=$last
    deposits large.bagset -H 'Expect: 100-continue'
    if [ "$proxy" = caddy ] && caddy version | grep -q '^v\?2\.[0-6]\.'; then
        # (Caddy finds the length of a body in chunks from 2.7 on)
        gets 400 '{"error":"Chunked"}' anna "$(next)" --data-binary @small.bagset -H 'Transfer-Encoding: chunked'
    else
        deposits small.bagset -H 'Transfer-Encoding: chunked'
        deposits large.bagset -H 'Transfer-Encoding: chunked'
    fi
    two_over_one_connection
    curl -sS --cacert office.crt -u "anna:$password" -o down "https://localhost:$https/deposits/$large/bag"
    cmp -s down large.bagset || fail "a download of 10 MiB isn't what was deposited"
    cases=$((cases + 1))

    # who is slow holds nobody else up
    curl -sS --limit-rate 500K --cacert office.crt -u "carl:$password" -o /dev/null --data-binary @large.bagset \
        "https://localhost:$https$(next)" &
    slow=$!
    sleep 0.5
    quick 'a slow upload'
    # (a download of which a byte is taken, and then nothing)
    rm -f stuck
    mkfifo stuck
    # (the request before may be over a moment later)
    curl -sS --retry 9 --cacert office.crt -u "carl:$password" "https://localhost:$https/deposits/$large/bag" >stuck &
    slow=$!
    exec 8<stuck
    head -c 1 <&8 >byte
    [ -s byte ] || fail "a slow download didn't begin"
    quick 'a slow download'
    exec 8<&-

    # who can't be a caller is refused here: a stranger would get a list
    gets 403 '{"error":"NotACaller"}' Berta /deposits
    gets 403 '{"error":"NotACaller"}' "${users[4]}" /deposits

    # errors of the proxy
    said=$(curl -sS --cacert office.crt -w '\n%{http_code} %{content_type}' "https://localhost:$https/deposits")
    [ "$said" = '{"error":"Unauthorized"}'$'\n401 application/json' ] ||
        fail "without a password 401 as JSON is wanted, and this came: $said"
    said=$(curl -sS --cacert office.crt -u anna:wrong -o /dev/null -D - "https://localhost:$https/deposits" |
        tr -d '\r' | grep -i '^www-authenticate:')
    [ -n "$said" ] || fail "a wrong password isn't asked for again"
    head -c $((17 << 20)) /dev/zero >beyond
    said=$(curl -sS --cacert office.crt -u "anna:$password" -H 'Expect:' -w '\n%{http_code} %{content_type}' \
        --data-binary @beyond "https://localhost:$https$(next)" 2>/dev/null) || true
    [ "$said" = '{"error":"TooLarge"}'$'\n413 application/json' ] ||
        fail "of a body of 17 MiB 413 as JSON is wanted, and this came: $said"
    cases=$((cases + 3))
    gets 405 '{"error":"Method"}' anna /due -X TRACE
    long=$(head -c 9000 /dev/zero | tr '\0' a)
    if [ "$proxy" = nginx ]; then
        gets 414 '{"error":"TooLarge"}' anna "/$long"
        gets 400 '{"error":"BadRequest"}' anna /due -H "X: $long"
        gets 404 '{"error":"NoRoute"}' anna /error
        # a line that is no request, and a request without TLS
        gets 400 '{"error":"BadRequest"}' anna /due -X 'GE T'
        said=$(curl -sS -w '\n%{http_code} %{content_type}' "http://localhost:$https/due")
        [ "$said" = '{"error":"BadRequest"}'$'\n400 application/json' ] ||
            fail "without TLS 400 as JSON is wanted, and this came: $said"
        cases=$((cases + 1))
    else
        # (it passes such a head on)
        gets 413 '{"error":"TooLarge"}' anna "/$long"
        gets 413 '{"error":"TooLarge"}' anna /due -H "X: $long"
    fi

    part fields "$https" "$proxy"
    part foreign "$https" "$proxy" "$desk" with "$joined"
    part logged "$https" "$proxy" "$log" "$desk" "$office"
    come_and_go
    if [ "$proxy" = nginx ]; then
        part shares "$https" "$proxy"
        fills
    fi
}

# What the desk itself answers this caller of the holds.
desk_says() {
    local said
    said=$(curl -sS -w ' %{http_code}' -H "Depot-Caller: $1" "http://127.0.0.1:$desk$holds")
    [ "$said" = "$2" ] || fail "the control: $2 is wanted for $1, and this came: $said"
    cases=$((cases + 1))
}

# A malformed head is refused, by the proxy or by the desk, or the user's own name counts: `refused_or STATUS USER
# LINE`, where the status is wanted then, and the line isn't a field.
refused_or() {
    local said
    said=$(python3 - "$https" "$2:$password" "$holds" "$3" <<'END'
import base64, socket, ssl, sys
port, user, target, line = sys.argv[1:]
context = ssl.create_default_context(cafile="office.crt")
with socket.create_connection(("127.0.0.1", int(port))) as plain, \
        context.wrap_socket(plain, server_hostname="localhost") as peer:
    peer.settimeout(30)
    given = base64.b64encode(user.encode()).decode()
    head = f"GET {target} HTTP/1.1\r\nHost: localhost\r\nAuthorization: Basic {given}\r\n"
    peer.sendall(f"{head}{line}\r\nConnection: close\r\n\r\n".encode())
    print(peer.recv(4096).split(b"\r\n")[0].decode())
END
    )
    case $said in
    'HTTP/1.1 400 '* | "HTTP/1.1 $1 "*) ;; # (nginx leaves such a field out)
    *) fail "$3 by $2: 400 or $1 is wanted, and this came: $said" ;;
    esac
    cases=$((cases + 1))
}

# Two requests over one connection of the client.
two_over_one_connection() {
    local said
    said=$(curl -sS --cacert office.crt -u "anna:$password" "https://localhost:$https/due" \
        "https://localhost:$https/due" -w '%{num_connects}' 2>&1)
    [ "$said" = "{\"day\":\"$day\",\"deposits\":[]}1{\"day\":\"$day\",\"deposits\":[]}0" ] ||
        fail "two requests over one connection gave $said"
    cases=$((cases + 1))
}

# Others are served at once, while what is slow goes on: it is ended then.
quick() {
    local began=$SECONDS
    gets 200 "{\"day\":\"$day\",\"deposits\":[]}" anna /due
    [ $((SECONDS - began)) -le 2 ] || fail "$1 held others up for $((SECONDS - began)) seconds"
    kill -0 "$slow" 2>/dev/null || fail "$1 was over"
    kill "$slow"
}

# Users come and go while an office serves, and an upload that goes on meanwhile isn't lost: nginx reads the file of
# users for each request, and Caddy is told.
come_and_go() {
    local file=$proxy/office.users slow rate=250K unknown='{"error":"Unauthorized"}'
    # (Caddy's hash of a password takes a second)
    [ "$proxy" = nginx ] || rate=70K
    curl -sS --limit-rate $rate --cacert office.crt -u "carl:$password" -o answer --data-binary @medium.bagset \
        "https://localhost:$https$(next)" &
    slow=$!
    gets 401 "$unknown" dora /due
    "${proxy}_user" dora >>"$file"
    told_of_users
    gets 200 "{\"day\":\"$day\",\"deposits\":[]}" dora /due
    sed -i '/^dora/d' "$file"
    told_of_users
    gets 401 "$unknown" dora /due
    kill -0 "$slow" || fail "the upload was over before users came and went"
    wait "$slow" || fail "an upload while users came and went: curl ended with $?"
    last=$((last + 1))
    [ "$(cat answer)" = "{\"deposit\":$last}" ] || fail "an upload while users came and went was answered $(cat answer)"
    cases=$((cases + 1))
}
told_of_users() {
    [ "$proxy" = nginx ] || reload_caddy "$room" || fail "it can't be reloaded: $(tail -n 1 caddy/reloaded)"
}

# fill asks one request after the other, as fast as it goes: none is refused.
fills() {
    local at before
    "$program" unpack small.bagset filled >/dev/null
    for at in $(seq 25); do
        printf '%s\tmaps\ty1\tF-%s\t2024-02-29\n' filled "$at"
    done >bags.list
    before=$(wc -l <"$log")
    DEPOT=$program "$top/examples/fill" "https://localhost:$https" anna bags.list --cacert office.crt \
        -u "anna:$password" >filling ||
        fail "fill ended with $?: $(tail -n 1 filling)"
    [ "$(tail -n 1 filling)" = '25 of 25 bags are in the office, and 0 were refused' ] ||
        fail "fill said $(tail -n 1 filling)"
    ! tail -n +$((before + 1)) "$log" | grep '"status":429' || fail "a request of fill was refused"
    last=$((last + 25))
    cases=$((cases + 2))
}

# The log goes on while it is rotated, and nothing of it is lost.
rotates() {
    if [ "$proxy" = nginx ]; then
        sed -e "s|/var/log/depot/access.log|$log|; s|/run/nginx.pid|$room/nginx/pid|g; s|create .*|create 640 $owner|" \
            "$top/examples/logrotate.conf" >logrotate.conf
        for at in 1 2 3; do
            part many "$https" "$proxy" "$log" 40 10
            logrotate --force --state "$room/state" logrotate.conf 2>trouble || fail "logrotate: $(cat trouble)"
            part many "$https" "$proxy" "$log" 40 10
            # (as if that were a month ago)
            mv "$log-$(date +%Y%m%d)" "$log-2023010$at"
        done
        [ "$(cd logs; echo nginx.log-2023*)" = \
            'nginx.log-20230101.gz nginx.log-20230102.gz nginx.log-20230103' ] || fail "the log became $(ls logs)"
        [ "$(stat -c %a "$log")" = 640 ] || fail "the new file of the log has the mode $(stat -c %a "$log")"
        cases=$((cases + 2))
    else
        part many "$https" "$proxy" "$log" 400 6000
        [ "$(find logs -name 'caddy-*' | wc -l)" -ge 2 ] || fail "the log isn't rotated"
        cases=$((cases + 1))
    fi
}

# How long another user waits for a due list while one asks again and again, from 200 connections, for the audit of a
# bag: that user, the password, and for how many seconds. Sets `waited`, in seconds, and what the other got.
flood() {
    local said
    said=$(python3 "$top/trials/proxy_client.py" flood "$https" "$1" "$2" "$audit" 200 "$3") || fail "the flood failed"
    read -r waited asked came <<<"$said"
}

# ---- each proxy, and the controls

case $(PATH=$PATH:/usr/sbin nginx -v 2>&1) in
*/1.[0-9].* | */1.1[0-9].* | */1.2[0-2].*) joined=first ;;
*) joined=joined ;;
esac
owner='www-data root'
[ "$(id -u)" -eq 0 ] || owner="$(id -un) $(id -gn)"
last=1
for proxy in nginx caddy; do
    "start_$proxy" "$room" "$desk"
    try_proxy
    stop_proxy
    # no password is in any log, as it is or as it is sent
    for user in "${users[@]}"; do
        for secret in "$password" "$(printf '%s:%s' "$user" "$password" | base64)"; do
            ! grep -rlF "$secret" logs || fail "a password is in the log"
            cases=$((cases + 1))
        done
    done
done

proxy=nginx
# a user's flood, for 8 seconds; the control has no limits
last=$((last + 1))
asks --data-binary @asked.bagset \
    "http://127.0.0.1:$desk/deposits?collection=maps&class=y1&accession=A-$last&closed=2024-02-29"
audit=/deposits/$last/audit
cost=$(curl -sS -o answer -w '%{time_total}' -H 'Depot-Caller: anna' "http://127.0.0.1:$desk$audit")
grep -q '"valid":true' answer || fail "the bag of the flood isn't there: $(cat answer)"
start_nginx "$room" "$desk"
bound=$(python3 -c "print(2 + 2 * $cost)")
for each in "carl $password" "anna wrong"; do
    # shellcheck disable=SC2086 # two words
    flood $each 8
    if [ "$came" != 200 ] || python3 -c "import sys; sys.exit($waited <= $bound)"; then
        fail "while ${each%% *} floods, with the password ${each#* }, another waited $waited seconds and got $came"
    fi
    cases=$((cases + asked))
    with=${with:-$waited}
done
rotates
stop_proxy
edit='/limit_(req|conn)/d' start_nginx "$room" "$desk"
flood carl "$password" 20
python3 -c "import sys; sys.exit($waited <= 2 * $bound)" ||
    fail "the control: without limits another waited $waited seconds, and with them $with"
stop_proxy
# (and one whose rate is that of a name that a client gives, before the password is looked at: others use it up)
edit='s/"\$office \$office_user"/"$office $remote_user"/
    s/zone=office_addresses burst.*/zone=office_rates burst=50;/' \
    start_nginx "$room" "$desk"
flood anna wrong 6
case $came in
*429*) ;;
*) fail "the control: who doesn't know a password used up nothing of a user's rate: $came" ;;
esac
stop_proxy

# without the lines that do it
edit='/if \(\$is_foreign/,/\}/d; /limit_(req|conn)/d' start_nginx "$room" "$desk"
part foreign "$https" nginx "$desk" without "$joined"
stop_proxy
for each in '/proxy_ignore_client_abort/d=a client that hung up' '/if \(\$is_unlogged/,/\}/d=413 is wanted' \
    's/\$asked_method"/$request_method"/=a line of' 's/office_user"/remote_user"/=a line of'; do
    edit=${each%=*} start_nginx "$room" "$desk"
    fails "${each##*=}" logged "$https" nginx "$log" "$desk" "$office"
    stop_proxy
done

proxy=caddy
edit='s/roll_size .*/roll_size 1MiB/; /error @foreign/d' start_caddy "$room" "$desk"
part foreign "$https" caddy "$desk" without "$joined"
rotates
stop_proxy
# (a log of the site, as Caddy's documents have it, misses a client that writes the host in capitals)
edit='s/include http.log.access$/include http.log.access.log0/; s|^\tlog$|\tlog {\n\t\toutput discard\n\t}|' \
    start_caddy "$room" "$desk"
fails 'lines are wanted' logged "$https" caddy "$log" "$desk" "$office"
stop_proxy

# ---- targets and prefixes: what an office is asked

declare -A asked_at
for name in office 2024 2025; do
    python3 "$top/trials/proxy_client.py" echo $name >echo.$name 2>&1 &
    await $! echo.$name listening
    asked_at[$name]=$(cut -d ' ' -f 2 echo.$name)
done
for proxy in nginx caddy; do
    users=(anna carl)
    "start_$proxy" "$room" "${asked_at[office]}"
    part targets "$https" "$proxy"
    stop_proxy
    for user in zoe carl; do "${proxy}_user" "$user"; done >"$proxy/2025.users"
    several=("2024=${asked_at[2024]}" "2025=${asked_at[2025]}")
    "start_$proxy" "$room" "${several[@]}"
    part prefixes "$https" "$proxy" "$log"
    stop_proxy
    # the control: what the proxy made of the target
    edit='s/^( *#?)("~\^.\[.*|default +)\$(office_rest|request_uri);/\1\2$uri;/
        s/(uri) path_regexp .(\/20..)\/ \//\1 strip_prefix \2/' \
        "start_$proxy" "$room" "${several[@]}"
    fails 'came as' prefixes "$https" "$proxy" "$log"
    stop_proxy
done

# ---- the page for officers beside an office

mkdir room
chmod 755 room
echo 'a page' >room/page.html
for proxy in nginx caddy; do
    edit="s|/usr/local/share/depot/room|$room/room|" "start_$proxy" "$room" "$desk"
    part room "$https" "$proxy"
    stop_proxy
done

# ---- the office is gone: the proxy says so

stop_office
for proxy in nginx caddy; do
    "start_$proxy" "$room" "$desk"
    gets 502 '{"error":"Unreachable"}' anna /due
    stop_proxy
done
echo "proxy: $cases cases: nginx and Caddy in front of offices"
