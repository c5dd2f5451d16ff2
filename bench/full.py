#!/usr/bin/env python3
"""What a full office takes: 999,999 deposits of at most 1,000,000.

Python fills the file (`stores.py`): each deposit has three small files, of which two are its own, and a hold of its
own; but one in ten thousand is due and has none. One in a thousand is of another collection. `depot serve` over that
file is asked requests of many kinds, readings first: the small ones many times, over scattered deposits; those that go
over all deposits once. Prints for each how much processor time the server takes, how long the client waits, and the
most memory that the server has had until then. For the list of all deposits it also prints that memory for each byte
of the answer. One more deposit fills the office, and the next is refused. Then the office is stopped, backed up as the
unit `depot-backup@` does it, and started again. No figure but that of the list has a target.

Takes some 3 GiB below TMPDIR, 4 GiB of memory, and several minutes. ROWS=n is another number of deposits; DEPOT names
another program than the built one. BESIDE=PROGRAM then asks another `depot` the same, over the same rows.
crates/trial_office has to be built too, since it makes the file.
"""
import os
import re
import subprocess
import tempfile
import time
from contextlib import closing
from pathlib import Path
from statistics import median

from trial_office import FILES, copy, opened
from offices import DAY, deposit
from servers import asked, processor_time
from shared.comparing import fail
from shared.forms import form
from shared.offices import Server
from shared.places import DEPOT, TRIAL_OFFICE, TOP, needs_built
from shared.requests import request
from stores import small_bag, stored
from turns import BESIDE, say_machine

ROWS = int(os.environ.get("ROWS", "999999"))
# How many times a small request is made.
MANY = 1_000
BAG = form(dict(FILES))
MIB = 2**20


def is_due(number):
    """Whether the deposit is one of the few that are due, and have no hold."""
    return number % 10_000 == 1


DUE = [number for number in range(1, ROWS + 1) if is_due(number)]
HELD = ROWS - len(DUE)


def special(number):
    """What is special of a deposit."""
    few = {"collection": "tax"} if number % 1_000 == 0 else {}
    return few | ({"closed": 16_801} if is_due(number) else {"held": True})


class Office(Server):
    """A `depot serve` over a file, which takes as long as it may."""

    def __init__(self, depot, file):
        begin = time.perf_counter()
        super().__init__(depot, file, DAY, patience=None)
        self.opening, self.opened = time.perf_counter() - begin, self.peak()

    def used(self):
        """The seconds of processor time that the server has taken."""
        return processor_time(self.process)

    def peak(self):
        """The most memory that the server has had, in MiB."""
        return int(re.search(r"VmHWM:\s+(\d+) kB", Path(f"/proc/{self.process.pid}/status").read_text())[1]) / 1024

    def ask(self, name, texts, status):
        """Makes requests of one kind, and says what they took. The body of the last answer."""
        waits, before = [], self.used()
        for text in texts:
            begin = time.perf_counter()
            found, body = asked(self.port, text)
            waits.append(time.perf_counter() - begin)
            if found != status:
                fail(f"{name}: {status} is wanted, and {found} came: {body[:200]}")
        took = (self.used() - before) / len(texts)
        print(
            f"{name}: {shown(took)} of processor time, {shown(median(waits))} until the answer was there"
            f" ({len(texts):,} of them, the last with a body of {len(body):,} bytes;"
            f" at most {self.peak():.0f} MiB so far)",
            flush=True,
        )
        return body

    def __enter__(self):
        return self

    def __exit__(self, *_):
        self.stop()


def shown(seconds):
    """A time as it is printed."""
    return f"{seconds * 1000:.2f} ms" if seconds < 1 else f"{seconds:.1f} s"


def scattered(target, method="GET"):
    """Requests of deposits that lie far from each other, have a hold, and are of the collection of most."""
    numbers = (n * 7_919 % ROWS + 1 for n in range(2 * MANY))
    return [request(method, target % it) for it in numbers if not is_due(it) and it % 1_000][:MANY]


def read(office):
    """Requests that change nothing."""
    for name, target in [
        ("a record", "/deposits/%d"),
        ("the holds on a deposit", "/deposits/%d/holds"),
        ("a bag of three small files", "/deposits/%d/bag"),
        ("an audit of one", "/deposits/%d/audit"),
        ("a file", "/deposits/%d/files/data/record"),
    ]:
        office.ask(name, scattered(target), 200)
    office.ask("a disposal that a hold refuses", scattered("/deposits/%d", "DELETE"), 409)
    office.ask(f"a due list of {len(DUE)}", [request("GET", "/due")] * 20, 200)
    office.ask(f"a list of a collection of {ROWS // 1_000:,}", [request("GET", "/deposits?collection=tax")], 200)
    length = len(office.ask("a list of all deposits", [request("GET", "/deposits")], 200))
    peak, more = office.peak() * MIB, (office.peak() - office.opened) * MIB
    print(
        f"{peak / length:.1f} bytes of memory for each of its {length:,} bytes (at most 6),"
        f" {more / length:.1f} of them above the most of the opening",
        flush=True,
    )


def change(office):
    """Requests that change the file, each brought to the disk."""

    def defined(target, number, body=b""):
        return [request("PUT", target % n, body) for n in range(number)]

    office.ask("a disposal", [request("DELETE", f"/deposits/{n}") for n in DUE], 200)
    office.ask("a deposit of 10 KiB", [deposit(ROWS + 1, BAG)], 201)
    refused = office.ask("a deposit that a full office refuses", [deposit(ROWS + 2, BAG)], 409)
    if refused != b'{"error":"Full"}':
        fail(f"a full office refuses a deposit otherwise: {refused}")
    office.ask("a collection defined", defined("/collections/c%d", 100), 200)
    office.ask("a class defined", defined("/classes/k%d", 100, b'{"years":3}'), 200)
    office.ask("a hold on a deposit", [request("POST", "/holds", b'{"deposit":2,"matter":"suit"}')], 201)
    office.ask("its release", [request("DELETE", f"/holds/{HELD + 1}")], 200)
    office.ask(
        f"a hold on a collection of {ROWS - ROWS // 1_000:,}",
        [request("POST", "/holds", b'{"collection":"maps","matter":"suit"}')],
        201,
    )
    office.ask("its release", [request("DELETE", f"/holds/{HELD + 2}")], 200)
    office.ask("a hold on the class of all", [request("POST", "/holds", b'{"class":"y10","matter":"suit"}')], 201)
    office.ask("its release", [request("DELETE", f"/holds/{HELD + 3}")], 200)
    office.ask("the class of all revised", [request("PUT", "/classes/y10", b'{"years":11}')], 200)


def restart(depot, file):
    """A backup of the office that was stopped, and a start."""
    begin = time.perf_counter()
    with tempfile.TemporaryDirectory() as folder:
        words = [str(TOP / "examples" / "systemd" / "backup"), str(file), folder]
        subprocess.run(words, check=True, stdout=subprocess.DEVNULL, env={**os.environ, "DEPOT": str(depot)})
    between = time.perf_counter() - begin
    with Office(depot, file) as again:
        print(f"a restart with a backup: {shown(between + again.opening)}, {shown(again.opening)} of it the opening")


def filled(folder):
    """The file of an office that has room for one more deposit."""
    begin = time.perf_counter()
    file = stored(folder, "full", ROWS, special, bag=small_bag)
    with closing(opened(file)) as connection:
        connection.execute("UPDATE office SET max_deposits = ?1, max_holds = 1000000", (ROWS + 1,))
    size = file.stat().st_size / MIB
    print(f"a file of {size:.0f} MiB, filled in {shown(time.perf_counter() - begin)}", flush=True)
    return file


def measure(depot, file):
    """All that a program takes over the file."""
    with Office(depot, file) as office:
        print(
            f"its opening: {shown(office.used())} of processor time, {shown(office.opening)} until it listens,"
            f" at most {office.peak():.0f} MiB",
            flush=True,
        )
        read(office)
        change(office)
    restart(depot, file)


def main():
    needs_built(DEPOT, TRIAL_OFFICE)
    say_machine()
    with tempfile.TemporaryDirectory() as room:
        file = filled(room)
        for depot in filter(None, (DEPOT, BESIDE)):
            print(f"by {depot}:", flush=True)
            measure(depot, copy(file, "asked.db"))


if __name__ == "__main__":
    main()
