#!/usr/bin/env python3
"""Speed of the whole program: `serve`, `replay` into a file, and the opening of a file; and the memory of that.

`get` and `deposit` are requests through `depot serve`, beside the same through `serving.py` (http.server
and sqlite3, WAL, synchronous FULL); the same client asks both, over a connection for each request, and their
bodies are compared. The processor time of the servers, without their start, is compared too. `replay` is 2,000
mixed requests into a file, beside the SQL statements alone that they make, in their order and in one transaction
each, through Python's sqlite3; the start of the program, the opening of the file and its closing count on both
sides. `open` is the time of a request that changes nothing by `depot ask`, of files of several sizes with rows of
1 MiB, and of one with 100 MiB of bags of 10 KiB: figures alone. `pages` is the most memory of such a request, of a
file of 512 MiB in pages of 4 KiB and of 64 KiB: as much of it as is above the length of the file, which an opening
reads. With BESIDE=PROGRAM another `depot` takes the other side of all but `open`.
Prints a ratio for each case: of the medians of runs that take turns (RUNS=n, 7 if left out). The programs
`depot` and crates/trial_office have to be built. The arguments of `program.py` name the cases that are run;
with none, all are.
"""
import os
import sqlite3
import subprocess
import sys
import time
from statistics import median

from trial_office import END_HOLD, FILES, PUT_HOLD, RUNS, SET_HOLDS
from trial_office import copy, filled, main, opened, put_file, turns
from servers import asked, processor_time
from shared.comparing import fail
from shared.forms import form
from shared.offices import replay as replayed
from shared.offices import started
from shared.peaks import watched
from shared.places import DEPOT, TOP, needs_built
from shared.requests import deposit_target, parts, record, records_in, request
from statements import DAY as DAY_NUMBER
from statements import DUE_ROW, HOLD, LIMITS, Statements
from turns import BESIDE, other_side, say, say_memory

SERVING = TOP / "bench" / "serving.py"
DAY = "2026-02-16"
BAG = form(dict(FILES))


def served(words, requests):
    """The microseconds that a server takes for these requests, those of its processor time, and the bodies of its
    answers."""
    server, port = started(words)
    before = processor_time(server)
    begin = time.perf_counter()
    bodies = [asked(port, it)[1] for it in requests]
    took = time.perf_counter() - begin
    _, status, used = os.wait4(server.pid, 0)
    server.returncode = os.waitstatus_to_exitcode(status)
    if server.returncode != 0:
        fail(f"{words} ended with {server.returncode}")
    return took * 1e6, (used.ru_utime + used.ru_stime - before) * 1e6, bodies


def through_servers(folder, name, requests, most):
    """Requests through both servers, each over a copy of an office of 100 deposits."""
    file, count = filled(folder, 100), len(requests)
    processor, last = {"ours": [], "theirs": []}, {}

    def side(key, words_of):
        took, used, last[key] = served(words_of(copy(file, f"{key}.db")), requests)
        processor[key].append(used)
        return took

    def through(depot):
        words_of = lambda to: [depot, "serve", "--port", 0, "--count", count, to, DAY]
        return side("theirs" if depot == BESIDE else "ours", words_of)

    through_python = lambda: side("theirs", lambda to: [sys.executable, SERVING, to, DAY, count])
    other, *named = other_side(through, through_python, "http.server and sqlite3", most)
    first, second = turns(lambda: through(DEPOT), other)
    if last["ours"] != last["theirs"]:
        fail(f"{name}: other answers")
    say(name, count, first, second, *named)
    say(f"{name}, processor time of the server", count, *processor.values(), named[0])


def target_of(number):
    """The target that deposits the bag with the accession of this number."""
    return deposit_target(f"2026-{number:07}", "tax", "y10", "2026-01-01")


def get(folder):
    """GETs of a record."""
    through_servers(folder, "get", [request("GET", f"/deposits/{n % 100 + 1}") for n in range(2_000)], 1)


def deposit(folder):
    """Deposits of a bag of 10 KiB with three files."""
    requests = [request("POST", target_of(100 + n), BAG) for n in range(1, 201)]
    through_servers(folder, "deposit", requests, 1)


class Mixed(Statements):
    """The statements of mixed requests, and their records; `HOLDS` are there before."""

    HOLDS = 100

    def count(self, number, by):
        """Changes the number of live holds over the deposit."""
        self.rows(LIMITS, 1)
        self.rows(SET_HOLDS, number, self.rows(DUE_ROW, number)[0][2] + by)

    def hold(self, number, other):
        self.row(other)
        self.asker("hold")
        self.next_hold()
        self.rows(PUT_HOLD, number, other, None, None, "suit", DAY_NUMBER)
        self.count(other, 1)

    def release(self, number):
        found = self.rows(HOLD + " WHERE number = ?1", number)
        self.row(found[0][1])
        self.asker("release")
        self.rows(END_HOLD, number, DAY_NUMBER)
        self.count(found[0][1], -1)


# What each of the mixed requests is answered: the disposal is refused for a hold.
STATUS = {"deposit": 201, "record": 200, "hold": 201, "disposal": 409, "bag": 200, "release": 200}


def mixed(turn):
    """Ten mixed requests: the records of a replay, and what each of them is by name and numbers."""
    new, hold = 101 + 2 * turn, Mixed.HOLDS + 1 + turn
    other = turn % 100 + 1
    matter = b'{"deposit":%d,"matter":"suit"}' % other
    return [
        (("POST", target_of(new), BAG), ("deposit", new)),
        (("GET", f"/deposits/{new}"), ("record", new)),
        (("POST", "/holds", matter), ("hold", hold, other)),
        (("DELETE", f"/deposits/{other}"), ("disposal", other)),
        (("GET", f"/deposits/{new}/bag"), ("bag", new)),
        (("POST", target_of(new + 1), BAG), ("deposit", new + 1)),
        (("GET", f"/deposits/{other}"), ("record", other)),
        (("DELETE", f"/holds/{hold}"), ("release", hold)),
        (("GET", f"/deposits/{new + 1}"), ("record", new + 1)),
        (("GET", f"/deposits/{other}/bag"), ("bag", other)),
    ]


def replay(folder):
    """2,000 mixed requests into a file of 100 deposits and holds."""
    file = filled(folder, 100)
    items = [it for turn in range(200) for it in mixed(turn)]
    text = b"".join(record(DAY, request(*words)) for words, _ in items)

    def ours(depot):
        to = copy(file, "ours.db")
        begin = time.perf_counter()
        done = replayed(depot, to, [text])
        took = time.perf_counter() - begin
        statuses = [parts(it)[0] for it in records_in(done.stdout)[0]]
        if done.returncode != 0 or statuses != [STATUS[name] for _, (name, *_) in items]:
            fail(f"replay ended with {done.returncode}, or answers otherwise: {done.stderr.decode()}")
        return took * 1e6

    def theirs():
        to = copy(file, "theirs.db")
        begin = time.perf_counter()
        statements = Mixed(to)
        for _, (name, *numbers) in items:
            statements.connection.execute("BEGIN")
            getattr(statements, name)(*numbers)
            statements.connection.execute("COMMIT" if name in ("deposit", "hold", "release") else "ROLLBACK")
        statements.connection.close()
        return (time.perf_counter() - begin) * 1e6

    other, *named = other_side(ours, theirs, "its statements through Python", 2)
    say("replay", len(items), *turns(lambda: ours(DEPOT), other), *named)


def opens(file, rows):
    """A request that changes nothing, of this file: the figure alone."""
    text, found = request("GET", "/deposits/1"), []
    for _ in range(3):
        begin = time.perf_counter()
        done = subprocess.run([str(DEPOT), "ask", str(file), DAY], input=text, capture_output=True)
        found.append(time.perf_counter() - begin)
        if not done.stdout.startswith(b"HTTP/1.1 200 "):
            fail(f"ask ended with {done.returncode}: {done.stderr.decode()}")
    size = file.stat().st_size / 2**20
    print(f"open: {median(found):.2f} seconds of a file of {size:.0f} MiB, {rows}", flush=True)


def with_rows(folder, count):
    """An office of 100 deposits with this number of rows of 1 MiB in the first."""
    large = copy(filled(folder, 100), f"large-{count}.db")
    connection = opened(large)
    connection.execute("BEGIN")
    for n in range(count):
        put_file(connection, 1, f"data/large{n}", b"%04d" % n + b"r" * (2**20 - 4))
    connection.execute("COMMIT")
    connection.execute("PRAGMA wal_checkpoint(TRUNCATE)").fetchall()
    connection.close()
    return large


def opening(folder):
    """Files of several sizes with rows of 1 MiB, and one with 100 MiB of bags of 10 KiB."""
    for size in (10, 50, 100):
        opens(with_rows(folder, size), f"{size} rows of 1 MiB in one deposit")
    opens(filled(folder, 10_240), "10,240 deposits of 10 KiB with three files each, and as many holds")


def in_pages(file, size):
    """Writes the file anew in pages of this size."""
    connection = sqlite3.connect(file)
    for text in ("PRAGMA journal_mode = DELETE", f"PRAGMA page_size = {size}", "VACUUM"):
        connection.execute(text).fetchall()
    connection.close()


def pages(folder):
    """The memory of an opening above the length of the file, by the size of its pages."""
    file = with_rows(folder, 512)
    for size in (4_096, 65_536):
        in_pages(file, size)
        length = file.stat().st_size

        def above(depot):
            status, peak, _ = watched(depot, "ask", file, DAY)
            if status != 0:
                fail(f"ask ended with {status}")
            return peak - length

        name = f"pages of {size // 1024} KiB, above the length of the file"
        if BESIDE:
            say_memory(name, above, DEPOT, RUNS)
        else:
            found = median(above(DEPOT) for _ in range(3))
            print(f"{name}, {length / 2**20:.0f} MiB: {found / 2**20:.0f} MiB (at most 150)", flush=True)


CASES = {"get": get, "deposit": deposit, "replay": replay, "open": opening, "pages": pages}

if __name__ == "__main__":
    needs_built(DEPOT)
    main(CASES)
