#!/usr/bin/env python3
"""Speed of the calls of the office's tables over a file.

`deposit` and `read` are measured beside the same statements through Python's sqlite3 (WAL,
synchronous FULL), `live` and `last` at 10,000 rows beside 100 rows. Prints a ratio for each case:
of the medians of runs that take turns (RUNS=n, 7 if left out). The program crates/trial_office, which
makes the calls, has to be built; it doesn't count the opening of the file, and nor does the other
side. The arguments of `tables.py` name the cases that are run; with none, all are.
"""
import time

from trial_office import DEPOSITS, copy, file_of, filled, main, opened, ours, put_bag, turns
from shared.comparing import fail
from turns import say


def their_deposits(file, count):
    """Microseconds of this number of deposits through Python."""
    connection = opened(file)
    last = connection.execute(f"SELECT number FROM {DEPOSITS} ORDER BY number DESC LIMIT 1").fetchone()[0]
    begin = time.perf_counter()
    for number in range(last + 1, last + count + 1):
        connection.execute("BEGIN")
        put_bag(connection, number)
        connection.execute("COMMIT")
    took = time.perf_counter() - begin
    connection.close()
    return took * 1e6


def their_reads(file, last, count):
    """Microseconds of this number of point reads through Python, of the same files in the same order."""
    connection = opened(file)
    begin = time.perf_counter()
    for turn in range(1, count + 1):
        number = (turn * 7919) % 2**32 % last + 1
        if len(file_of(connection, number, "data/record")) != 10_108:
            fail("another content")
    took = time.perf_counter() - begin
    connection.close()
    return took * 1e6


def deposit(folder):
    """Deposits of a bag of 10 KiB with three files."""
    file, count = filled(folder, 100), 300
    first, second = turns(
        lambda: ours("deposits", copy(file, "ours.db"), count),
        lambda: their_deposits(copy(file, "theirs.db"), count),
    )
    say("deposit", count, first, second, "Python's sqlite3", 1.5)


def read(folder):
    """Point reads, one file of one deposit, at 10,000 deposits."""
    file, count = filled(folder, 10_000), 10_000
    first, second = turns(
        lambda: ours("read", file, count), lambda: their_reads(file, 10_000, count)
    )
    say("read", count, first, second, "Python's sqlite3", 1.5)


def by_rows(folder, task, count):
    """A call at 10,000 rows beside 100 rows."""
    many, few = filled(folder, 10_000), filled(folder, 100)
    first, second = turns(lambda: ours(task, many, count), lambda: ours(task, few, count))
    say(task, count, first, second, "the same at 100 rows", 2)


def live(folder):
    """`live_holds`, where the deposit has the same three live holds."""
    by_rows(folder, "live", 200)


def last(folder):
    """`last_deposit`."""
    by_rows(folder, "last", 2_000)


CASES = {"deposit": deposit, "read": read, "live": live, "last": last}

if __name__ == "__main__":
    main(CASES)
