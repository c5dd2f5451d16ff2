"""What the speed scripts of the office share: the program `crates/trial_office`, and files that hold
an office, which Python fills.
"""
import functools
import hashlib
import os
import pathlib
import shutil
import sqlite3
import subprocess
import sys
import tempfile

from shared import days
from shared.comparing import fail
from shared.forms import bag
from shared.places import TRIAL_OFFICE, needs_built
from shared.stores import NEWEST
from turns import chosen, say_machine
from turns import turns as taking_turns

RUNS = int(os.environ.get("RUNS", "7"))
DEPOSITS, HOLDS = NEWEST["deposit"], NEWEST["hold"]
PUT_DEPOSIT = (
    f"INSERT INTO {DEPOSITS} (number, accession, collection, class, closed, deposited, files, bytes, due, holds)"
    " VALUES (?1, ?2, ?3, ?4, ?5, ?6, ?7, ?8, ?9, ?10)"
)
SET_DUES = f"UPDATE {DEPOSITS} SET due = ?3 WHERE number BETWEEN ?1 AND ?2"
SET_HOLDS = f"UPDATE {DEPOSITS} SET holds = ?2 WHERE number = ?1"
# Each deposit's count of the live holds that cover it.
COUNT_HOLDS = (
    f"UPDATE {DEPOSITS} AS it SET holds ="
    f" (SELECT count(*) FROM {HOLDS} AS hold WHERE hold.deposit = it.number AND released IS NULL)"
    f" + (SELECT count(*) FROM {HOLDS} AS hold WHERE hold.collection = it.collection AND released IS NULL)"
    f" + (SELECT count(*) FROM {HOLDS} AS hold WHERE hold.class = it.class AND released IS NULL)"
)
CONTENT_ALIKE = "SELECT id FROM content WHERE mark = ?1 AND bytes = ?2 ORDER BY id"
PUT_CONTENT = "INSERT INTO content (mark, size, bytes) VALUES (?1, ?2, ?3)"
LAST_CONTENT = "SELECT id FROM content ORDER BY id DESC LIMIT 1"
PUT_FILE = "INSERT INTO file (deposit, path, content) VALUES (?1, ?2, ?3)"
PUT_HOLD = (
    f"INSERT INTO {HOLDS} (number, deposit, collection, class, matter, placed)"
    " VALUES (?1, ?2, ?3, ?4, ?5, ?6)"
)
END_HOLD = f"UPDATE {HOLDS} SET released = ?2 WHERE number = ?1"
CONTENT_ID = "SELECT content FROM file WHERE deposit = ?1 AND path = ?2"
CONTENT_OF = "SELECT mark, bytes FROM content WHERE id = ?1"


def files_with(record):
    """The files of a bag with this record, and their paths, in order."""
    return [(path.decode(), content) for path, content in sorted(bag({b"data/record": record}).items())]


# The bag of 10,240 bytes that the program deposits, too.
RECORD = b"r" * 10_108
FILES = files_with(RECORD)
due_day = functools.cache(days.due_day)
# The due day of a bag: ten years after its closing day.
DUE = due_day(20454, 10)


def ours(*words, program=TRIAL_OFFICE):
    """What the program prints, or another build of it."""
    found = subprocess.run([str(program), *map(str, words)], capture_output=True, text=True)
    if found.returncode != 0:
        fail(f"{words} ended with {found.returncode}: {found.stderr}")
    return found.stdout


# Runs the program of its arguments, and prints the most memory that it took, in bytes.
WAIT = """
import os, sys
_, status, used = os.wait4(os.posix_spawn(sys.argv[1], sys.argv[1:], os.environ), 0)
if status != 0:
    sys.exit(f"{sys.argv[2:]} ended with {status}")
print(used.ru_maxrss * 1024)
"""


def watched(*words, program=TRIAL_OFFICE):
    """The microseconds that the program prints, or another build of it, and the most memory that it takes, in bytes. A
    small process starts it, since a process counts as its own what the one that starts it holds."""
    words = [sys.executable, "-c", WAIT, str(program), *map(str, words)]
    found = subprocess.run(words, capture_output=True, text=True)
    if found.returncode != 0:
        fail(found.stderr)
    took, peak = map(int, found.stdout.split())
    return took, peak


def opened(file):
    """The file, as Python opens it. Like the program, it copies a log of 1,000 pages into the file."""
    connection = sqlite3.connect(file, isolation_level=None)
    connection.execute("PRAGMA journal_mode = WAL").fetchall()
    connection.execute("PRAGMA synchronous = FULL")
    connection.execute("PRAGMA foreign_keys = ON")
    return connection


def put_file(connection, number, path, content):
    """A file of a deposit, whose content is kept once."""
    mark = hashlib.sha256(content).digest()
    found = connection.execute(CONTENT_ALIKE, (mark, content)).fetchone()
    if not found:
        connection.execute(PUT_CONTENT, (mark, len(content), content))
        found = connection.execute(LAST_CONTENT).fetchone()
    connection.execute(PUT_FILE, (number, path, found[0]))


def file_of(connection, number, path):
    """The content of a file."""
    found = connection.execute(CONTENT_ID, (number, path)).fetchone()
    return connection.execute(CONTENT_OF, found).fetchone()[1]


def intact(connection, content):
    """The bytes of the content of this number, whose SHA-256 is its mark."""
    mark, found = connection.execute(CONTENT_OF, (content,)).fetchone()
    if hashlib.sha256(found).digest() != mark:
        raise ValueError(f"content {content} was altered")
    return found


def put_row(connection, number, due=None, holds=0):
    """The row of a deposit of a bag of 10 KiB, with its due day and its count of holds."""
    row = (number, f"2026-{number:07}", "tax", "y10", 20454, 20500, 1, 10108, due, holds)
    connection.execute(PUT_DEPOSIT, row)


def put_files(connection, number, files):
    """The files of a deposit."""
    for path, content in files:
        put_file(connection, number, path, content)


def put_bag(connection, number):
    """A deposit of the bag and its three files."""
    put_row(connection, number)
    put_files(connection, number, FILES)


def own_files(number, like=RECORD):
    """The files of a bag with a record as long as `like`, whose record and manifest no other deposit has."""
    return files_with(b"%010d" % number + like[10:])


def held_elsewhere(number):
    """What the hold of that number is on, where it isn't to be over deposit 1: the next deposit, another
    collection or another class."""
    if number % 2:
        return number + 1, None, None
    other = f"other {number % 50}"
    return (None, other, None) if number % 4 else (None, None, other)


def filled(folder, rows):
    """An office with this number of deposits, each of a bag of its own, and holds; three live holds are over
    deposit 1: one on it, one on its collection and one on its class."""
    file = pathlib.Path(folder) / f"{rows}.db"
    if file.exists():
        return file
    ours("make", file)
    connection = opened(file)
    connection.execute("BEGIN")
    for number in range(1, rows + 1):
        put_row(connection, number, DUE)
        put_files(connection, number, own_files(number))
    few = {rows // 4: (1, None, None), rows // 2: (None, "tax", None), rows: (None, None, "y10")}
    for number in range(1, rows + 1):
        connection.execute(PUT_HOLD, (number, *few.get(number, held_elsewhere(number)), "suit", 20_600))
        if number not in few and number % 3:
            connection.execute(END_HOLD, (number, 20_700))
    connection.execute(COUNT_HOLDS)
    connection.execute("COMMIT")
    connection.execute("PRAGMA wal_checkpoint(TRUNCATE)").fetchall()
    connection.close()
    return file


def copy(file, name):
    """A copy of the file beside it, in place of an earlier one."""
    to = file.with_name(name)
    for end in ("", "-wal", "-shm"):
        to.with_name(name + end).unlink(missing_ok=True)
    shutil.copyfile(file, to)
    return to


def turns(first, second):
    """What runs that take turns gave."""
    return taking_turns(first, second, RUNS)


def main(cases):
    """Runs the cases that the script's arguments name, or all."""
    needs_built(TRIAL_OFFICE)
    names = chosen(cases)
    say_machine()
    with tempfile.TemporaryDirectory() as folder:
        for name in names:
            cases[name](folder)
