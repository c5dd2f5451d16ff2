#!/usr/bin/env bash
# Installs the program by `./depot install DIR`: under DIR are the program, its man page, its completions and the
# records room, and nothing else. There the program runs in a tree that has nothing but what `ldd` names, `man` shows
# the page, and bash loads the completions. It works on a tiny tree in the place of the repository, and a stand-in for
# `rt` gives the program. Without root or a user namespace the program isn't run by itself.
# Argument: the program; if left out, that of DEPOT, or the repository's own.
set -eu
top=$(readlink -f "$(dirname "$(readlink -f "$0")")/..")
. "$top/trials/needs.sh"
. "$top/trials/cases.sh"
. "$top/trials/processes.sh"
needs man=man-db unshare=util-linux
needs_program "$@"
make_room

# The repository, as far as the script needs it, and a kit.
mkdir -p "$room"/tree/crates/depot/src "$room"/kit/bin
cp "$top/depot" "$room/tree/"
cp -r "$top/docs" "$top/examples" "$top/room" "$room/tree/"
echo 'depot:' >"$room/tree/crates.txt"
echo '//' >"$room/tree/crates/depot/src/main.rt"
echo 'kit' >"$room/kit/KIT-ID"
printf '#!/bin/sh\ncp "%s" out/depot\n' "$program" >"$room/kit/bin/rt"
chmod 755 "$room/kit/bin/rt"

cd "$room/tree"
PATH=$room/kit/bin:$PATH
for words in 'install' 'install a b'; do
    status=0
    # shellcheck disable=SC2086 # these are words
    ./depot $words >../said 2>../told || status=$?
    compare "./depot $words" '2; Usage: ./depot install DIR, where DIR is a folder such as /usr/local' \
        "$status; $(cat ../said ../told)"
done
[ ! -e crates/depot/out ] || fail "invalid arguments began a build"
mkdir "$room/root"
page=$(cd "$top/room" && LC_ALL=C find . -type f -not -name README.md -printf '644 share/depot/room/%P\n' |
    LC_ALL=C sort | paste -sd' ')
for _ in once again; do
    ./depot install "$room/root/usr/local" 2>../told
    compare "what stands under DIR" \
        "644 share/bash-completion/completions/depot $page 644 share/man/man1/depot.1 755 bin/depot" \
        "$(cd "$room/root/usr/local" && find . -type f -printf '%m %P\n' | LC_ALL=C sort | paste -sd' ')"
done
cmp "$program" "$room/root/usr/local/bin/depot"
cmp "$top/docs/depot.1" "$room/root/usr/local/share/man/man1/depot.1"

# The program, in a tree with nothing but the libraries that it names.
for library in $(ldd "$program" | grep -o '/[^ ]*'); do
    install -D "$library" "$room/root$library"
done
cp "$top/examples/bag-a.bagset" "$top/examples/policy.toml" "$room/root/"
within() {
    apart --root="$room/root" /usr/local/bin/depot "$@"
}
if apart true 2>../told; then
    compare "a bag is checked" 'valid 1.0 files 1 bytes 3 manifests 1' "$(within check bag-a.bagset)"
    compare "an office is made" 'installed 3 rules 2 callers' "$(within policy office.db policy.toml)"
    compare "it is asked" '{"day":"2024-03-01","deposits":[]}' \
        "$(printf 'GET /due HTTP/1.1\r\n\r\n' | within ask office.db 2024-03-01 | tail -n 1)"
    alone=
else
    alone=", but for the program by itself, since this machine has no namespaces: $(head -n 1 ../told)"
fi

# Its page, and its completions as the package `bash-completion` loads them.
compare "man finds the page" "$room/root/usr/local/share/man/man1/depot.1" \
    "$(MANPATH=$room/root/usr/local/share/man man -w depot)"
# shellcheck disable=SC2016 # for the inner shell
compare "bash completes" 'serve' \
    "$(bash -euc '. "$0"; COMP_WORDS=(depot se) COMP_CWORD=1; _depot; echo "${COMPREPLY[*]}"' \
        "$room/root/usr/local/share/bash-completion/completions/depot")"
echo "install: $cases cases: the program, its page and its completions, and it needs nothing else$alone"
