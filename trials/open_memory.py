#!/usr/bin/env python3
"""Shows how much memory it takes to open an office, as docs/OPERATING.md says under "Limits": the most that `depot ask`
has resident. The files have several lengths. Some have bags of 1 MiB, in the end in pages of 64 KiB; some have many
small bags; and some have holds alone, which Python's `sqlite3` writes. No peak is over the page's bound.

With less memory than that the command prints `memory` and ends with status 3, and the office is as it was.

Arguments: the program, by default that of the variable DEPOT, or the built one; and a length in MiB up to which files
are tried, by default 160.
"""

import hashlib
import os
import resource
import sqlite3
import subprocess
import sys
import tempfile

from shared.comparing import fail
from shared.forms import form_of
from shared.offices import make_office, replay
from shared.peaks import watched
from shared.places import depot
from shared.requests import deposit_target, record, request

DAY = "2024-03-02"
MIB = 1 << 20
LENGTHS = [16, 64, 112, 160, 256, 512, 1024, 2048, 4096]


def bound(length):
    """The page's bound for a file of this length."""
    return 2 * length + 20 * MIB if length <= 120 * MIB else length + 150 * MIB


def bound_of_rows(length):
    """The page's bound for a file of small rows alone."""
    return 5 * length + 20 * MIB


def asked(method, target, body=b""):
    return record(DAY, request(method, target, body))


def make(program, store):
    """A new office, with nothing in it."""
    make_office(program, store)
    records = [asked("PUT", "/collections/maps"), asked("PUT", "/classes/y1", b'{"years":1}')]
    replay(program, store, records).check_returncode()


def grow(program, store, numbers, size):
    """Deposits of these numbers, each of a bag with this number of bytes of its own."""
    with subprocess.Popen([program, "replay", store], stdin=subprocess.PIPE, stdout=subprocess.DEVNULL) as running:
        for number in numbers:
            running.stdin.write(asked("POST", deposit_target(f"A-{number}"), form_of(os.urandom(size))))
        running.stdin.close()
        if running.wait() != 0:
            fail("the office can't be filled")


def hold(store, count):
    """Places this number of holds on the collection."""
    office = sqlite3.connect(store)
    office.execute(
        "WITH RECURSIVE n(i) AS (SELECT 1 UNION ALL SELECT i + 1 FROM n WHERE i < ?)"
        " INSERT INTO hold_4 SELECT i, NULL, 'maps', NULL, 'Case 7', 19784, NULL FROM n",
        [count],
    )
    office.commit()
    office.close()


def with_pages(store, length):
    """Writes the file anew with pages of this length."""
    office = sqlite3.connect(store)
    office.execute("PRAGMA journal_mode = DELETE")
    office.execute(f"PRAGMA page_size = {length}")
    office.execute("VACUUM")
    office.close()


def opened(program, store, name, allowed=bound):
    """Prints the most memory of an opening, and its processor time. The memory has to be within the page's bound."""
    length = os.path.getsize(store)
    status, peak, seconds = watched(program, "ask", store, DAY)
    if status != 0:
        fail(f"an opening ends with {status}")
    took = f"{peak / MIB:.0f} MiB, and {seconds:.2f} s of processor time"
    print(f"open_memory: {name}, a file of {length / MIB:.1f} MiB: {took}")
    if peak > allowed(length):
        fail(f"the page says at most {allowed(length) / MIB:.0f} MiB")
    return length


def digest(path):
    """The digest of a file."""
    with open(path, "rb") as file:
        return hashlib.file_digest(file, "sha256").digest()


def refused(program, store, least):
    """An opening with no more memory than this."""
    before = digest(store)
    ran = subprocess.run(
        [program, "ask", store, DAY],
        stdin=subprocess.DEVNULL,
        capture_output=True,
        timeout=600,
        preexec_fn=lambda: resource.setrlimit(resource.RLIMIT_AS, (least, least)),
    )
    if ran.returncode != 3 or not ran.stderr.startswith(b"memory\n") or ran.stdout:
        fail(f"with {least // MIB} MiB of memory `memory` and status 3 are wanted, and this came: {ran}")
    if digest(store) != before:
        fail("an opening that had no memory changed the file")


def with_bags(program, store, size, name, lengths):
    """Opens a file that grows to these lengths in MiB by bags of this size; in the end also with less memory than it is
    long. Gives how many openings were measured."""
    make(program, store)
    kept = 0
    for wanted in lengths:
        count = wanted * MIB // (size + 300)
        grow(program, store, range(kept + 1, count + 1), size)
        kept = count
        length = opened(program, store, name)
    tried = len(lengths)
    if size == MIB:
        # (as many pages of 64 KiB as of 4 KiB would take 2 GiB)
        with_pages(store, 65_536)
        length = opened(program, store, f"{name}, pages of 64 KiB")
        tried += 1
    refused(program, store, length)
    return tried


def main():
    words = sys.argv[1:]
    program = depot(words)
    most = int(words[1]) if len(words) > 1 else 160
    tried = 0
    with tempfile.TemporaryDirectory() as folder:
        # (small bags take longer to deposit)
        for size, name, longest in ((MIB, "bags of 1 MiB", most), (10_000, "bags of 10 kB", 64)):
            store = os.path.join(folder, f"{size}.db")
            tried += with_bags(program, store, size, name, [it for it in LENGTHS if it <= longest])
        for count in 10_000, 100_000, 1_000_000:
            store = os.path.join(folder, f"holds-{count}.db")
            make(program, store)
            hold(store, count)
            opened(program, store, f"{count} holds", bound_of_rows)
            tried += 1
    print(f"open_memory: {tried} openings within the page's bound, and two that had no memory changed nothing")


if __name__ == "__main__":
    main()
