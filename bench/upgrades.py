#!/usr/bin/env python3
"""Speed and memory of an upgrade: the tables of version 3 or 4 become the newest.

`third` and `fourth` are the upgrade of an office of 100,000 deposits, 10,000 holds and 200 rules from that version,
beside the same SQL statements in one transaction through Python's sqlite3 (WAL, synchronous FULL, foreign keys on): the
ratio of the medians of runs that take turns (RUNS=n, 7 if left out), each over a fresh copy of the file that is on the
disk. The opening of the file counts on neither side. Then the peak memory, above the same program's that opened the
file, by how much the file grows, its log folded in, and how long the log was. `growth` and `later` are the time, the
memory and the file at 1,000,000 holds beside 10,000, from version 3 and from version 4. BESIDE=PROGRAM measures each
beside another build of the program instead: in `growth` and `later` 1,000,000 holds alone.

The program crates/trial_office, which makes the upgrade, has to be built. The arguments of `upgrades.py` name the cases
that are run; with none, all are.
"""
import os
import subprocess
import time
from statistics import median

from trial_office import copy, main, opened, turns, watched
from shared.days import FIRST, LAST
from shared.places import TRIAL_OFFICE
from shared.stores import SCHEMA, VERSION, VERSION_3, VERSION_4
from stores import stored_before
from turns import BESIDE, OTHER, other_side, ratio, say, spreads

FEW, MANY = 10_000, 1_000_000
LOOK = "SELECT id, version, max_deposits, max_holds FROM office ORDER BY version"
SET_VERSION = "UPDATE office SET version = ?2 WHERE id = ?1"
MOVE_HOLDS = [
    *SCHEMA[len(VERSION_3) : len(VERSION_4)],
    "INSERT INTO hold_4 (number, deposit, collection, class, matter, placed, released)"
    " SELECT number, deposit, collection, NULL, matter, placed, released FROM hold ORDER BY number",
    "DELETE FROM hold",
]
MOVE_RULES = [
    *SCHEMA[len(VERSION_4) :],
    "INSERT INTO rule_5 (place, effect, role, action, collection, class, first, last)"
    f" SELECT place, effect, role, action, collection, class, {FIRST}, {LAST} FROM rule ORDER BY place",
    "DELETE FROM rule",
]
MOVES = {3: MOVE_HOLDS + MOVE_RULES, 4: MOVE_RULES}


def fresh(file, name="ours.db"):
    """A copy of the file that is on the disk."""
    to = copy(file, name)
    os.sync()
    return to


class Ours:
    """Upgrades of a file by a build of the program, and the room that they take, in bytes."""

    def __init__(self, file, program=TRIAL_OFFICE):
        self.file, self.program = file, program
        _, self.opened = watched("last", file, 0, program=program)
        self.peaks, self.grown = [], 0

    def upgrade(self):
        """Microseconds of an upgrade."""
        to = fresh(self.file)
        took, peak = watched("upgrade", to, program=self.program)
        self.peaks.append(peak)
        self.grown = to.stat().st_size - self.file.stat().st_size
        return took

    @property
    def peak(self):
        """The most memory of an upgrade above that of the opening."""
        return max(0, max(self.peaks) - self.opened)

    def room(self):
        """The room that an upgrade takes, as it is printed."""
        size = self.file.stat().st_size
        memory = f"peak memory {mebibytes(self.peak)} above {mebibytes(self.opened)}"
        return f"{memory}; the file grows by {mebibytes(self.grown)}, from {mebibytes(size)}"

    def longest_log(self):
        """How many bytes the log beside the file has at most while the program upgrades a copy."""
        to = fresh(self.file)
        log, longest = to.with_name(to.name + "-wal"), 0
        with subprocess.Popen(
            [self.program, "upgrade", to], stdout=subprocess.DEVNULL, stderr=subprocess.DEVNULL
        ) as running:
            while running.poll() is None:
                longest = max(longest, log.stat().st_size if log.exists() else 0)
                time.sleep(0.0005)
        return longest

    def say(self, name):
        """Prints the room that an upgrade of that name takes."""
        by = f", by {OTHER}" if self.program == BESIDE else ""
        print(f"{name}{by}: {self.room()}; its log has {mebibytes(self.longest_log())}", flush=True)


def builds(file):
    """Upgrades of a file by the program, and by the other build of it where there is one."""
    return {it: Ours(file, it) for it in (TRIAL_OFFICE, BESIDE) if it}


def say_room(name, by):
    """Prints the room that an upgrade of that name takes by each build."""
    for each in by.values():
        each.say(name)
    if BESIDE:
        peaks = [each.peaks for each in by.values()]
        say(f"{name}, peak memory with the opening", 2**20, *peaks, OTHER, unit="MiB")


def theirs(file, version):
    """Microseconds of the statements of an upgrade from that version through Python."""
    connection = opened(fresh(file, "theirs.db"))
    begin = time.perf_counter()
    connection.execute("BEGIN")
    connection.execute(LOOK).fetchall()
    for text in MOVES[version]:
        connection.execute(text)
    connection.execute(SET_VERSION, (1, VERSION))
    connection.execute("COMMIT")
    took = time.perf_counter() - begin
    connection.close()
    return took * 1e6


def mebibytes(count):
    """A number of bytes as it is printed."""
    return f"{count / 2**20:.2f} MiB"


def upgrade(folder, version):
    """An upgrade of an office with 10,000 holds from that version, beside its statements or another build."""
    file, name = stored_before(folder, version, FEW), f"from version {version}"
    by = builds(file)
    asked = lambda program: by[program].upgrade()
    other, *named = other_side(asked, lambda: theirs(file, version), "its statements through Python", 1.5)
    say(name, 1, *turns(lambda: asked(TRIAL_OFFICE), other), *named)
    say_room(name, by)


def growth(folder, version):
    """An upgrade of an office with 1,000,000 holds from that version, beside one with 10,000 or another build."""
    name = f"{MANY:,} holds of version {version}"
    if BESIDE:
        by = builds(stored_before(folder, version, MANY))
        say(name, 1, *turns(by[TRIAL_OFFICE].upgrade, by[BESIDE].upgrade), OTHER)
        say_room(name, by)
        return
    few, many = (Ours(stored_before(folder, version, holds)) for holds in (FEW, MANY))
    first, second = turns(many.upgrade, few.upgrade)
    took, times = median(first), ratio(first, second)
    each = f"{took / MANY:.2f} and {median(second) / FEW:.2f} microseconds a hold; {spreads(first, second)}"
    print(f"{name}: {took / 1e6:.2f} seconds, {times:.1f} times that of {FEW:,} ({each})", flush=True)
    memory, disk = ((many.peak - few.peak) / (MANY - FEW), (many.grown - few.grown) / (MANY - FEW))
    each = f"{memory:.0f} and {disk:.0f} bytes a further hold"
    print(f"{name}: {many.room()} (the same of {FEW:,}: {few.room()}; {each})", flush=True)


CASES = {
    "third": lambda folder: upgrade(folder, 3),
    "fourth": lambda folder: upgrade(folder, 4),
    "growth": lambda folder: growth(folder, 3),
    "later": lambda folder: growth(folder, 4),
}

if __name__ == "__main__":
    main(CASES)
