#!/usr/bin/env bash
# Shows that what a request lends can't be used once the request is gone. A program that drops a `Heard`, and then uses
# a bag that it read from its request, does not compile (borrow-e0505); the same program without the drop does. It works
# on a copy of the crates below `desk_hearing`, with what their checks left; without that they are proved first, which
# takes some minutes.
set -eu
top=$(readlink -f "$(dirname "$(readlink -f "$0")")/..")
. "$top/trials/needs.sh"
. "$top/trials/cases.sh"
. "$top/trials/processes.sh"
needs_kit
make_room

mkdir -p "$room/crates/lending/src"
for crate in bag_text bag_check office_rows office_core desk_devices desk_forms desk_heads desk_routes desk_hearing; do
    cp -a "$top/crates/$crate" "$room/crates/"
    grep "^$crate:" "$top/crates.txt" >>"$room/crates.txt"
done
echo "lending: bag_text desk_devices desk_hearing office_core" >>"$room/crates.txt"

# Writes the program, with this line before the bag is used.
write() {
    cat >"$room/crates/lending/src/lib.rt" <<PROGRAM
//! Counts the files of a bag that a request deposits.
#![tactic(auto)]

use bag_text::read_bagset;
use desk_devices::Counted;
use desk_hearing::read_request;
use office_core::Request;
use std::alloc::Global;

/// The number of files of the bag that the request in these bytes deposits.
pub fn count_files(alloc: Global, bytes: &[u8]) -> Option<usize> {
    let mut reader = Counted::new(bytes);
    let heard = read_request(alloc, &mut reader).ok()?;
    let Request::Deposit { bag, .. } = heard.request() else {
        return None;
    };
    let bag = read_bagset(alloc, bag).ok()?;
    $1
    Some(bag.files().len())
}
PROGRAM
}

# Checks the program, and prints what is said of it.
check() {
    (cd "$room/crates/lending" && rt check 2>&1) || true
}

write ""
said=$(check)
grep -q '^logic=proved' <<<"$said" || fail "the program without the drop is refused: $said"
write "drop(heard);"
said=$(check)
grep -q 'borrow-e0505' <<<"$said" || fail "the program with the drop is not refused by borrow-e0505: $said"
echo "lending: 2 programs were checked: one that drops a Heard is refused by borrow-e0505, and one that keeps it" \
    "lends its bag"
