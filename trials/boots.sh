# Sourced by the scripts of this folder: a machine with a running systemd, booted by `systemd-nspawn` over an overlay of
# this machine's root, with a network of its own that has 127.0.0.1 alone. It sees the files of this machine, and what
# it writes is gone with it. It needs root. The script that sources this one sets `top`, and has sourced needs.sh and
# processes.sh, which halts the machine when the script ends.
# shellcheck shell=bash
machine=
leader=

# Boots it, and sets `leader` to its first process. The folder of `top` and those given are seen as they are here.
boot() {
    local bind=() each kind path end=$((SECONDS + 120))
    needs systemd-nspawn=systemd-container nsenter=util-linux dbus-daemon=dbus pgrep=procps
    needs_root "a machine that is booted"
    # shellcheck disable=SC2154 # the script that sources this one sets it
    for each in "$top" "$@"; do
        bind+=("--bind-ro=$(readlink -f "$each")")
    done
    machine=$(mktemp -d)
    mkdir "$machine/root"
    mount --bind / "$machine/root"
    # Each has control groups of its own: two machines in one would remove each other's.
    groups=()
    while IFS=: read -r _ kind path; do
        case $kind in
        name=systemd) each=/sys/fs/cgroup/systemd$path ;;
        '') each=/sys/fs/cgroup/unified$path; [ -d "$each" ] || each=/sys/fs/cgroup$path ;;
        *) continue ;;
        esac
        ! mkdir "${each%/}/depot-$$" 2>/dev/null || groups+=("${each%/}/depot-$$")
    done </proc/self/cgroup
    (
        for each in "${groups[@]}"; do
            echo "$BASHPID" >"$each/cgroup.procs"
        done
        exec systemd-nspawn --quiet --volatile=overlay --boot --directory="$machine/root" --machine="depot-$$" \
            --register=no --keep-unit --link-journal=no --private-network "${bind[@]}"
    ) </dev/null >"$machine/console" 2>&1 &
    nspawn=$!
    until [ -n "$leader" ] && within systemctl is-system-running 2>/dev/null | grep -qE '^(running|degraded)$'; do
        if ! kill -0 "$nspawn" 2>/dev/null || [ "$SECONDS" -ge "$end" ]; then
            tail -n 3 "$machine/console" >&2
            halt_machine
            lacks "a machine, and none can be booted"
        fi
        sleep 0.2
        leader=$(pgrep -P "$nspawn" -x systemd) || true
    done
}

# Runs a command in it, as its root.
within() {
    # (the clock is this machine's)
    nsenter --target "$leader" --all -- setpriv --bounding-set=-sys_time env -i HOME=/root LANG=C.UTF-8 \
        PATH=/usr/local/sbin:/usr/local/bin:/usr/sbin:/usr/bin:/sbin:/bin "$@"
}

# Asks an office in it as anna: the arguments are those of curl.
anna_within() {
    within curl -sS --max-time 30 -H 'Depot-Caller: anna' "$@"
}

# What is shown where a case fails (cases.sh): the end of its journal.
when_failed() {
    [ -z "$leader" ] || within journalctl --no-pager -n 30 -o short-precise
}

# Ends it, and takes away what was made for it.
halt_machine() {
    local each
    [ -n "$machine" ] || return 0
    if kill -0 "$nspawn" 2>/dev/null; then
        kill -TERM "$nspawn" 2>/dev/null || true
        timeout 30 tail --pid="$nspawn" -f /dev/null || kill -KILL "$nspawn" 2>/dev/null || true
    fi
    wait "$nspawn" 2>/dev/null || true
    for each in "${groups[@]}"; do
        # (what was killed may take a moment to be gone)
        for _ in {1..50}; do
            [ -d "$each" ] || break
            find "$each" -depth -type d -exec rmdir {} + 2>/dev/null || sleep 0.1
        done
    done
    umount -l "$machine/root" 2>/dev/null || true
    # (never what is below: were it still mounted, that would be this machine's own root)
    rmdir "$machine/root" && rm -f "$machine/console" && rmdir "$machine"
    machine=
    leader=
}
