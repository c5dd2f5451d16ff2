#!/usr/bin/env python3
"""Compares what offices store in addition to the rows of their tables with what these rows imply. It uses Python's
`sqlite3` and `hashlib`, and nothing of the program. In each office:

- each content is stored once, under its SHA-256 and with its size, and a file of a deposit that isn't destroyed has it;
  such a deposit has the number and the bytes of payload files that its row says, and no other deposit has files;
- each deposit, destroyed or not, has the due day of its closing day and of its class's years, and the number of the
  live holds on it, on its collection and on its class;
- the version is the newest, and the tables of older ones in whose place it has others are empty.

Prints the numbers of offices, deposits, contents and files, and how many files share a content.

Arguments: files that hold offices.
"""
import collections
import hashlib
import pathlib
import sqlite3
import sys

from shared.comparing import fail
from shared.days import due_day
from shared.stores import EMPTIED, NEWEST, VERSION


def faults_of_contents(base):
    """What is wrong with the contents."""
    rows = base.execute("SELECT id, mark, size, bytes FROM content").fetchall()
    used = {row[0] for row in base.execute("SELECT content FROM file")}
    counts = collections.Counter(row[3] for row in rows)
    for number, mark, size, content in rows:
        if mark != hashlib.sha256(content).digest():
            yield f"content {number} isn't under its SHA-256"
        if size != len(content):
            yield f"content {number} has the size {size}, and {len(content)} bytes"
        if counts[content] != 1:
            yield f"content {number} stands {counts[content]} times"
        if number not in used:
            yield f"no file has content {number}"


def faults_of_files(base):
    """What is wrong with the files of the deposits."""
    found = collections.defaultdict(list)
    contents = "SELECT deposit, path, bytes FROM file JOIN content ON content.id = file.content"
    for deposit, path, content in base.execute(contents):
        found[deposit].append((path, len(content)))
    for number, files, size, gone in base.execute(f"SELECT number, files, bytes, gone FROM {NEWEST['deposit']}"):
        payload = [length for path, length in found[number] if path.startswith("data/")]
        if gone is not None and found[number]:
            yield f"deposit {number} is destroyed, and has files"
        if gone is None and (len(payload), sum(payload)) != (files, size):
            there = f"{len(payload)} payload files of {sum(payload)} bytes"
            yield f"deposit {number} has {there}, and not {files} of {size}"
        del found[number]
    for number in found:
        yield f"there are files of deposit {number}, which isn't there"


def faults_of_deposits(base):
    """What is wrong with due days and counts of holds."""
    years = dict(base.execute("SELECT name, years FROM class"))
    live = f"SELECT deposit, collection, class FROM {NEWEST['hold']} WHERE released IS NULL"
    holds = base.execute(live).fetchall()
    rows = base.execute(f"SELECT number, collection, class, closed, due, holds FROM {NEWEST['deposit']}")
    for number, collection, name, closed, due, count in rows:
        wanted = due_day(closed, years[name])
        covering = sum(on == number or over == collection or of == name for on, over, of in holds)
        if due != wanted:
            yield f"deposit {number} has the due day {due}, and not {wanted}"
        if count != covering:
            yield f"deposit {number} has {count} holds, and not {covering}"


def faults_of_versions(base):
    """What is wrong with the version, and with the tables of older ones."""
    version, = base.execute("SELECT version FROM office").fetchone()
    if version != VERSION:
        yield f"the version is {version}"
    for table in EMPTIED:
        count, = base.execute(f"SELECT count(*) FROM {table}").fetchone()
        if count:
            yield f"{table} has {count} rows"


def look(file):
    """What is wrong with the office in the file, and how much it has."""
    base = sqlite3.connect(pathlib.Path(file).resolve().as_uri() + "?mode=ro", uri=True)
    faults = [*faults_of_versions(base), *faults_of_contents(base), *faults_of_files(base), *faults_of_deposits(base)]
    alike = "SELECT content FROM file GROUP BY content HAVING count(*) > 1"
    tables = NEWEST["deposit"], "content", "file", f"file WHERE content IN ({alike})"
    deposits, contents, files, shared = (base.execute(f"SELECT count(*) FROM {it}").fetchone()[0] for it in tables)
    base.close()
    return faults, collections.Counter(offices=1, deposits=deposits, contents=contents, files=files, shared=shared)


def main():
    total = collections.Counter()
    for file in sys.argv[1:]:
        faults, counts = look(file)
        if faults:
            fail(f"{file}: " + "; ".join(faults))
        total += counts
    print(f"kept: {total['offices']} offices with {total['deposits']} deposits, {total['contents']} contents of "
          f"{total['files']} files, {total['shared']} of which share one: contents, due days and counts of holds are "
          "those that the rows give")


if __name__ == "__main__":
    main()
