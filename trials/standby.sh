#!/usr/bin/env bash
# Two network namespaces are the two machines. On the first an office serves four clients that deposit, hold, release,
# revise and destroy without a pause; `examples/systemd/copy` copies it to the second, over ssh, every second. Then the
# first machine is lost, at a random moment of a copy: its processes are killed, and its folder is gone. The second
# starts from its newest copy. Each change that was answered before that copy began is there, byte for byte, and the
# office goes on: 20 times, or ROUNDS. Control: of copies of both files that are taken under the same load while the
# office goes on, some are refused, or lack changes.
# Argument: the program; if left out, that of DEPOT, or the repository's own.
set -eu
top=$(readlink -f "$(dirname "$(readlink -f "$0")")/..")
. "$top/trials/needs.sh"
. "$top/trials/cases.sh"
. "$top/trials/processes.sh"
. "$top/trials/offices.sh"
needs ip=iproute2 sshd=openssh-server ssh=openssh-client rsync curl python3
needs_root "two network namespaces"
needs_program "$@"
export DEPOT=$program
make_room
units=$top/examples/systemd
python=$(python3 -c 'import sys; print(sys.executable)')
rounds=${ROUNDS:-20}
day=2024-03-02
one=depot-one-$$
two=depot-two-$$
undo() {
    local each
    for each in "$one" "$two"; do ip netns delete "$each"; done 2>/dev/null
}
cd "$room"

# Runs a command on a machine. (In the background it is `ip netns exec` itself, so that `$!` is the command's process.)
on() {
    ip netns exec "$@"
}

# The two machines. The second takes the first's key, at a port of its own.
ip netns add "$one"
ip netns add "$two"
ip link add "d1-$$" netns "$one" type veth peer name "d2-$$" netns "$two"
on "$one" ip address add 192.0.2.1/24 dev "d1-$$"
on "$two" ip address add 192.0.2.2/24 dev "d2-$$"
for each in lo "d1-$$"; do on "$one" ip link set "$each" up; done
for each in lo "d2-$$"; do on "$two" ip link set "$each" up; done
ssh-keygen -q -t ed25519 -N '' -f host
ssh-keygen -q -t ed25519 -N '' -f key
chmod 700 .
sed 's/^/[192.0.2.2]:2022 /' host.pub >known
printf '%s\n' "HostKey $room/host" "AuthorizedKeysFile $room/key.pub" 'ListenAddress 192.0.2.2:2022' \
    'StrictModes no' 'UsePAM no' 'PidFile none' \
    "SetEnv DEPOT=$program" >sshd.conf
# (sshd wants a folder of its own under /run)
# shellcheck disable=SC2016
ip netns exec "$two" sh -c 'mount -t tmpfs none /run && mkdir /run/sshd &&
    exec "$(PATH=$PATH:/usr/sbin command -v sshd)" -D -e -f sshd.conf' >sshd.said 2>&1 &
export RSYNC_RSH="ssh -F none -i $room/key -p 2022 -o UserKnownHostsFile=$room/known -o BatchMode=yes"
export FOLD=$units/fold
for each in {1..50}; do
    # shellcheck disable=SC2086
    ! on "$one" $RSYNC_RSH 192.0.2.2 true 2>said || break
    [ "$each" -lt 50 ] || fail "the second machine can't be reached: $(cat said sshd.said)"
    sleep 0.1
done

# Has the office of a folder serve on a machine, and sets `office` and `address`.
serve() {
    rm -f listening
    ip netns exec "$1" "$program" serve --port 0 --count 1000000 "$2/office.db" "$day" >listening &
    office=$!
    await_port "$office" listening
    address=${address#http://}
}

# A new office on the first machine, and its load. `answered` has a line for each answered change.
begin() {
    rm -rf one two load
    mkdir -p one two/copies load
    "$program" policy one/office.db "$top/examples/policy.toml" >/dev/null
    echo $day >one/office.day
    serve "$one" one
    ip netns exec "$one" "$python" "$top/trials/standby.py" load "$address" load "$1" 2>load.said &
    load=$!
}
count() {
    wc -l <load/answered
}

copies=0
longest=0
changes=0
taken=0
for round in $(seq "$rounds"); do
    begin 40000
    until [ -s load/answered ] && [ "$(count)" -ge 20 ]; do sleep 0.05; done
    # What was answered before the copy of each name began. (One that is cut short has no name here.)
    : >begun
    last=$((1 + RANDOM % 3))
    for each in $(seq $((last + 1))); do
        before=$(count)
        began=${EPOCHREALTIME/./}
        ip netns exec "$one" setsid "$units/copy" one/office.db one/copies "192.0.2.2:$room/two/copies" >said 2>told &
        copy=$!
        if [ "$each" -le "$last" ]; then
            ended "$copy" || fail "no copy was made: $(cat told)"
            took=$((${EPOCHREALTIME/./} - began))
            name=$(sed -n "s|^192.0.2.2:$room/two/copies/\(.*\)\.db: the office stood still for .* ms$|\1|p" said)
            [ -n "$name" ] || fail "a copy says: $(cat said told)"
            echo "$name $before" >>begun
            stood=$(sed 's/.* for \(.*\) ms/\1/' said)
            [ "$stood" -le "$longest" ] || longest=$stood
            copies=$((copies + 1))
            sleep 0.$((RANDOM % 10))
        fi
    done
    # The first machine is lost, at a moment of this copy.
    moment=$((RANDOM * 32768 + RANDOM))
    moment=$((moment % (took + took / 5)))
    sleep "$(printf '%d.%06d' $((moment / 1000000)) $((moment % 1000000)))"
    kill -KILL "$office" "$load"
    kill -KILL -- "-$copy" 2>/dev/null || true
    for each in "$office" "$load" "$copy"; do ended "$each" 2>/dev/null || true; done
    [ ! -s load.said ] || fail "$(cat load.said)"
    rm -rf one
    # On the second: what has come whole is taken in, and the newest copy is put in the office's place.
    on "$two" "$units/fold" two/copies >said 2>told || true
    newest=$(find two/copies -maxdepth 1 -name '*.db' -printf '%f\n' | sort | tail -n 1)
    newest=${newest%.db}
    known=$(sed -n "s/^$newest //p" begun)
    if [ -z "$known" ]; then
        # It is the one that was cut short, since it is newer than the others.
        [[ $newest > $(tail -n 1 begun | cut -d ' ' -f 1) ]] ||
            fail "the newest copy is '$newest', and these were made: $(paste -sd, begun)"
        known=$before
        taken=$((taken + 1))
    fi
    [ "$(cat "two/copies/$newest.day")" = $day ] || fail "the copy's day is another"
    cp "two/copies/$newest.db" two/office.db
    serve "$two" two
    # It has what was answered before, and goes on.
    on "$two" python3 "$top/trials/standby.py" check "$address" load "$known" ||
        fail "round $round: $newest lacks what was answered before it began"
    stop_office
    changes=$((changes + known))
done

# Without a standstill: both files are sent one after the other, under the same load. Those are looked at during which
# the program copied the log into the file, at most eight.
begin 40000
until [ -s load/answered ] && [ "$(count)" -ge 20 ]; do sleep 0.05; done
tries=0
: >begun
end=$((SECONDS + 90))
while [ "$(wc -l <begun)" -lt 8 ] && [ "$SECONDS" -lt "$end" ]; do
    tries=$((tries + 1))
    before=$(count)
    moment=$(stat -c %y one/office.db)
    on "$one" rsync -a one/office.db one/office.db-wal "192.0.2.2:$room/two/raw/"
    if [ "$moment" != "$(stat -c %y one/office.db)" ]; then
        cp -r two/raw "two/$tries"
        echo "$tries $before" >>begun
    fi
done
end_process "$load"
end_process "$office"
refused=0
lacking=0
while read -r each before; do
    if ! request GET /deposits | "$program" ask "two/$each/office.db" "$day" >said 2>told; then
        grep -q 'malformed' told || fail "a copy without a standstill: $(cat told)"
        refused=$((refused + 1))
    elif ! "$python" "$top/trials/standby.py" lacks said load "$before" 2>told; then
        lacking=$((lacking + 1))
    fi
done <begun
[ $((refused + lacking)) -gt 0 ] ||
    fail "control: each of $(wc -l <begun) of $tries copies without a standstill had all that was answered"
echo "standby: $rounds times the second machine had what was answered ($changes changes; $copies copies, $longest ms" \
    "still at most; $taken times the copy that was cut short had come whole); without a standstill, of $tries copies" \
    "$refused were refused, $lacking lacked changes"
