#!/usr/bin/env python3
"""Speed of several offices on one machine.

1, 2 and 4 offices at once, each a `depot serve` with a file of its own, take the same load: as many clients and as many
requests in all, shared out evenly. `records` are GETs of a record, `deposits` are bags of 10 KiB with three files, each
with bytes of its own, and each on the disk before it is answered. A client is a process that asks one office, a
connection for each request, and waits for the answer before it asks again. The clients take the machine's processors,
too.

Prints for each case how many requests a second all offices answer, and how many times as many that is as one office
answers: medians of runs that take turns (RUNS=n, 5 if left out). CLIENTS=n is another number of clients than 8. DEPOT
names another program than the built one. The arguments of `offices.py` name the cases that are run; with none, all are.
"""
import multiprocessing
import os
import tempfile
import time
from pathlib import Path
from statistics import median

from trial_office import own_files
from shared.comparing import fail
from shared.forms import form
from shared.offices import Server, answer_to, replay
from shared.places import DEPOT, POLICY, needs_built
from shared.requests import deposit_target, record, request
from turns import chosen, say_machine, spread

RUNS = int(os.environ.get("RUNS", "5"))
CLIENTS = int(os.environ.get("CLIENTS", "8"))
OFFICES = [1, 2, 4]
DAY = "2026-02-16"
# How many deposits an office has before the load comes.
KEPT = 100


def deposit(number, form):
    """A request that deposits this form."""
    return request("POST", deposit_target(f"A-{number}", "tax", "y10", "2026-01-01"), form)


def own_deposit(number):
    """A request that deposits a bag that no other deposit has."""
    return deposit(number, form(dict(own_files(number))))


def records(count):
    """GETs of records, and the beginning of each answer."""
    return [request("GET", f"/deposits/{n % KEPT + 1}") for n in range(count)], b"HTTP/1.1 200 "


def deposits(count):
    """Deposits, and the beginning of each answer."""
    numbers = range(KEPT + 1, KEPT + 1 + count)
    return [own_deposit(n) for n in numbers], b"HTTP/1.1 201 "


# How many requests each case has in all, and what makes them.
CASES = {"records": (8_000, records), "deposits": (1_600, deposits)}


def new_office(file):
    """Makes the office that the others are copies of."""
    given = [request("PUT", "/classes/y10", b'{"years":10}'), request("PUT", "/collections/tax")]
    given += map(own_deposit, range(1, KEPT + 1))
    done = replay(DEPOT, file, [record(DAY, it) for it in given], "--policy", POLICY)
    if done.returncode != 0 or done.stdout.count(b"HTTP/1.1 20") != KEPT + 2:
        fail("the office wasn't made")


def client(port, requests, wanted, start, ended):
    """Asks one office these requests, and puts the moment of the last answer, or None where one isn't as wanted."""
    start.wait()
    try:
        for text in requests:
            if not answer_to(port, text, 60).startswith(wanted):
                ended.put(None)
                return
        ended.put(time.monotonic())
    except OSError:
        ended.put(None)


def per_second(folder, made, count, offices, made_by):
    """How many requests a second this number of offices answers."""
    requests, wanted = made_by(count)
    servers = []
    for at in range(offices):
        file = folder / f"{at}.db"
        file.write_bytes(made.read_bytes())
        mine = sum(len(requests[it::CLIENTS]) for it in range(at, CLIENTS, offices))
        servers.append(Server(DEPOT, file, DAY, mine))
    os.sync()
    context = multiprocessing.get_context("fork")
    start, ended = context.Barrier(CLIENTS + 1), context.Queue()
    clients = [
        context.Process(target=client, args=(servers[it % offices].port, requests[it::CLIENTS], wanted, start, ended))
        for it in range(CLIENTS)
    ]
    for each in clients:
        each.start()
    start.wait()
    begun = time.monotonic()
    ends = [ended.get(timeout=600) for _ in clients]
    for each in clients:
        each.join()
    # (each office ends by itself after its last connection)
    if None in ends or any(each.ended() != 0 for each in servers):
        fail("an office answers otherwise")
    return count / (max(ends) - begun)


def main():
    names = chosen(CASES)
    if CLIENTS < max(OFFICES):
        fail(f"CLIENTS is at least {max(OFFICES)}")
    needs_built(DEPOT)
    say_machine()
    with tempfile.TemporaryDirectory() as name:
        folder = Path(name)
        made = folder / "made.db"
        new_office(made)
        for name in names:
            count, made_by = CASES[name]
            found = {offices: [] for offices in OFFICES}
            for turn in range(RUNS):
                for offices in OFFICES if turn % 2 else reversed(OFFICES):
                    found[offices].append(per_second(folder, made, count, offices, made_by))
            for offices in OFFICES:
                rate = median(found[offices])
                print(
                    f"{name}: {offices} office{'s' * (offices > 1)}, {CLIENTS} clients, {count:,} requests:"
                    f" {rate:,.0f} a second, {rate / median(found[1]):.2f} times one office's"
                    f" (spread {spread(found[offices]):.0%})",
                    flush=True,
                )


if __name__ == "__main__":
    main()
