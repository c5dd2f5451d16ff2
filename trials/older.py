#!/usr/bin/env python3
"""Puts the tables of an office into those of an older version, through Python's sqlite3 and SQL of its own. The version
is 3 where no hold names a class and no rule has days, 4 where no rule has days, and otherwise 5: then the tables stay.

Prints the version, and the numbers of holds, released holds and deposits. Argument: the office's file.
"""
import sqlite3
import sys

from shared.days import FIRST, LAST

RULES = (
    "INSERT INTO rule SELECT place, effect, role, action, collection, class FROM rule_5",
    "DROP TABLE rule_5",
    "UPDATE office SET version = 4",
)
HOLDS = (
    "INSERT INTO hold SELECT number, deposit, collection, matter, placed, released FROM hold_4",
    "DROP TABLE hold_4",
    "UPDATE office SET version = 3",
)


def main():
    base = sqlite3.connect(sys.argv[1])
    version = 5
    texts = ()
    if not base.execute("SELECT 1 FROM rule_5 WHERE first <> ? OR last <> ?", (FIRST, LAST)).fetchone():
        version, texts = 4, RULES
        if not base.execute("SELECT 1 FROM hold_4 WHERE class IS NOT NULL").fetchone():
            version, texts = 3, RULES + HOLDS
    counts = base.execute("SELECT count(*), count(released), (SELECT count(*) FROM deposit) FROM hold_4").fetchone()
    with base:
        for text in texts:
            base.execute(text)
    base.close()
    print(version, *counts)


if __name__ == "__main__":
    main()
