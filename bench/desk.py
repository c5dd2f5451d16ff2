#!/usr/bin/env python3
"""Speed of the desk.

`gets`: `depot replay` over memory of 2,000 GETs of a record, beside a Python program that reads the
same request records by the parser of http.server and answers the same bytes from a dict. The start of
both programs counts. The program crates/depot has to be built.

`body`: a deposit whose body has 16 MiB is heard from a pipe, beside the same bytes read to their end
from the same pipe. The start of the program doesn't count. `peak`: the most memory that it takes, above
the program's that hears a GET. The program crates/trial_office has to be built.

Prints ratios of the medians of runs that take turns (RUNS=n, 7 if left out). The arguments of `desk.py`
name the cases that are run; with none, all are.
"""
import os
import pickle
import subprocess
import sys
import tempfile
import time
from io import BytesIO
from pathlib import Path
from statistics import median

from answering import Request, records
from shared.comparing import fail
from shared.places import DEPOT, EXAMPLE_BAG, TRIAL_OFFICE, POLICY, TOP, needs_built
from shared.requests import deposit_target, record, request
from turns import chosen, ratio, spreads, turns

DAY = "2024-03-01"
DEPOSIT = deposit_target("A-1")
BODY = 16 * 1024 * 1024
RUNS = int(os.environ.get("RUNS", "7"))


def deposited():
    """The records that define a class and a collection, and deposit a bag."""
    asked = [
        request("PUT", "/classes/y1", b'{"years":1}'),
        request("PUT", "/collections/maps"),
        request("POST", DEPOSIT, EXAMPLE_BAG.read_bytes()),
    ]
    return b"".join(record(DAY, it) for it in asked)


def took(words, given):
    """The seconds that the program takes on this input, and what it writes."""
    begin = time.perf_counter()
    done = subprocess.run(list(map(str, words)), input=given, stdout=subprocess.PIPE)
    seconds = time.perf_counter() - begin
    if done.returncode != 0:
        fail(f"{words} ended with {done.returncode}")
    return seconds, done.stdout


def gets(folder):
    """2,000 GETs of a record."""
    asked = deposited() + record(DAY, request("GET", "/deposits/1")) * 2_000
    replay = [DEPOT, "replay", "--policy", POLICY, ":memory:"]
    answered = took(replay, asked)[1]
    pairs = zip(records(BytesIO(asked)), records(BytesIO(answered)))
    with open(folder / "answers", "wb") as file:
        pickle.dump({Request(one).key(): other for one, other in pairs}, file)
    answer = [sys.executable, TOP / "bench/answering.py", folder / "answers"]

    def side(words):
        seconds, written = took(words, asked)
        if written != answered:
            fail(f"{words} wrote other answers")
        return seconds

    ours, theirs = turns(lambda: side(replay), lambda: side(answer), RUNS)
    print(
        f"gets: {ratio(ours, theirs):.2f} times http.server's parser and a dict (at most 0.5); ours"
        f" {median(ours) * 1000:.0f} ms, {spreads(ours, theirs)}",
        flush=True,
    )


def heard(word, file):
    """How many bytes the program hears or reads from a pipe, the microseconds, and the most memory that it
    takes, in bytes."""
    with subprocess.Popen(["cat", file], stdout=subprocess.PIPE) as given:
        time.sleep(0.01)
        found = subprocess.run([TRIAL_OFFICE, word], stdin=given.stdout, capture_output=True, text=True)
    if found.returncode != 0:
        fail(found.stderr)
    count, took, peak = map(int, found.stdout.split())
    return count, took, peak * 1024


def body(folder):
    """A deposit's body of 16 MiB."""
    deposit, get = folder / "deposit", folder / "get"
    deposit.write_bytes(request("POST", DEPOSIT, b"x" * BODY))
    get.write_bytes(request("GET", "/deposits/1"))

    def side(word, length):
        count, microseconds, _ = heard(word, deposit)
        if count != length:
            fail(f"{word} found {count} bytes")
        return microseconds

    whole = deposit.stat().st_size
    ours, theirs = turns(lambda: side("hear", BODY), lambda: side("read-all", whole), RUNS)
    print(
        f"body: {ratio(ours, theirs):.2f} times read_to_end (at most 1.5); ours"
        f" {median(ours) / 1000:.1f} ms, {spreads(ours, theirs)}",
        flush=True,
    )
    small = max(heard("hear", get)[2] for _ in range(3))
    large = max(heard("hear", deposit)[2] for _ in range(3))
    print(
        f"peak: the body and {(large - small - BODY) / 2**20:.2f} MiB above that of a GET,"
        f" {small / 2**20:.1f} MiB (at most the body and 1 MiB)",
        flush=True,
    )


CASES = {"gets": (gets, DEPOT), "body": (body, TRIAL_OFFICE)}


def main():
    names = chosen(CASES)
    needs_built(*(CASES[name][1] for name in names))
    with tempfile.TemporaryDirectory() as folder:
        for name in names:
            CASES[name][0](Path(folder))


if __name__ == "__main__":
    main()
