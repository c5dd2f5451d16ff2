"""Files that hold an office: the texts of their tables, files of versions 3 and 4, and what a file has."""
import hashlib
import os
import re
import shutil
import sqlite3

from shared.comparing import fail
from shared.days import FIRST, LAST
from shared.forms import bag
from shared.histories import CALLERS, COLLECTIONS, YEARS, history, rules_of
from shared.places import TOP

# The texts of the tables and indexes of the newest version. They begin with those of the older ones.
SCHEMA = (TOP / "trials/schema.sql").read_text().replace(";", "").splitlines()


def texts_before(table):
    """The texts before that of this table."""
    return SCHEMA[: next(n for n, text in enumerate(SCHEMA) if text.startswith(f"CREATE TABLE {table} "))]


def tables_of(texts):
    """The tables that these texts make."""
    return re.findall(r"^CREATE TABLE (\w+)", "\n".join(texts), re.MULTILINE)


def newest_of(texts):
    """Those of these tables that have rows, by the name of the first of their kind. One that takes the place of another
    has the number of the version that it comes with behind that name."""
    return {name.split("_")[0]: name for name in tables_of(texts)}


VERSION_3, VERSION_4 = texts_before("hold_4"), texts_before("rule_5")
# Of a store of the newest version: the tables that have rows, those in whose place they are, and its number.
NEWEST = newest_of(SCHEMA)
EMPTIED = [name for name in tables_of(SCHEMA) if name not in NEWEST.values()]
VERSION = max(int(name.split("_")[1]) for name in NEWEST.values() if "_" in name)
# The files of each deposit, in the order of their numbers.
BAG = {path.decode(): content for path, content in sorted(bag({b"data/a": b"abc"}).items())}
# The tables that are alike in all versions.
SAME = ["caller", "class", "collection", "deposit", "file", "content"]


def make(path, version, deposits, each, rules):
    """A store of that version, with holds of each kind, and rules. Gives the office whose rows it has."""
    office = history(version, deposits, each)
    contents = {name: n for n, name in enumerate(BAG, 1)}
    with sqlite3.connect(path) as base:
        for text in VERSION_3 if version == 3 else VERSION_4:
            base.execute(text)
        base.execute("INSERT INTO office VALUES (1, ?, 1000000, 1000000)", (version,))
        base.executemany("INSERT INTO caller VALUES (?, ?)", CALLERS.items())
        base.executemany("INSERT INTO rule VALUES (?, ?, ?, ?, ?, ?)", rules_of(rules))
        base.executemany("INSERT INTO class VALUES (?, ?)", YEARS.items())
        base.executemany("INSERT INTO collection VALUES (?)", [(it,) for it in COLLECTIONS])
        base.executemany(
            "INSERT INTO content VALUES (?, ?, ?, ?)",
            [(contents[it], hashlib.sha256(BAG[it]).digest(), len(BAG[it]), BAG[it]) for it in BAG],
        )
        base.executemany("INSERT INTO deposit VALUES (?, ?, ?, ?, ?, ?, ?, ?, ?, ?, ?)", office.rows_of_deposits())
        left = [it["deposit"] for it in office.deposits if it["gone"] is None]
        files = [(number, name, contents[name]) for number in left for name in BAG]
        base.executemany("INSERT INTO file VALUES (?, ?, ?)", files)
        if version == 3:
            holds = [it[:3] + it[4:] for it in office.rows_of_holds()]
            base.executemany("INSERT INTO hold VALUES (?, ?, ?, ?, ?, ?)", holds)
        else:
            base.executemany("INSERT INTO hold_4 VALUES (?, ?, ?, ?, ?, ?, ?)", office.rows_of_holds())
    base.close()
    return office


def look(path, does):
    """What that does with a copy of a store."""
    copy = path + ".look"
    shutil.copyfile(path, copy)
    if os.path.exists(path + "-wal"):
        shutil.copyfile(path + "-wal", copy + "-wal")
    done = does(copy)
    for end in ("", "-wal", "-shm"):
        if os.path.exists(copy + end):
            os.remove(copy + end)
    return done


def rows(path):
    """All that a store has: its schema, and the rows of each table."""
    return look(path, rows_in)


def rows_in(copy):
    connection = sqlite3.connect(copy)
    schema = connection.execute("SELECT type, name, tbl_name, sql FROM sqlite_schema ORDER BY rowid").fetchall()
    names = [name for kind, name, _, _ in schema if kind == "table"]
    found = {name: connection.execute(f"SELECT rowid, * FROM {name} ORDER BY rowid").fetchall() for name in names}
    whole = connection.execute("PRAGMA integrity_check").fetchall()
    broken = connection.execute("PRAGMA foreign_key_check").fetchall()
    connection.close()
    if whole != [("ok",)] or broken:
        fail(f"the file isn't whole: {whole} {broken}")
    return schema, found


def upgraded(version, before):
    """The rows that are wanted of a store that had these."""
    after = {name: before[name] for name in SAME}
    after["office"] = [(1, 1, VERSION, 1000000, 1000000)]
    after["hold"], after["rule"] = [], []
    if version == 3:
        after["hold_4"] = [(*it[:4], None, *it[4:]) for it in before["hold"]]
    else:
        after["hold_4"] = before["hold_4"]
    after["rule_5"] = [(*it, FIRST, LAST) for it in before["rule"]]
    return after


def differs(found, wanted):
    """The first table whose rows are others than those that are wanted."""
    if found.keys() != wanted.keys():
        return f"tables {sorted(found)}"
    for name in wanted:
        if found[name] != wanted[name]:
            pairs = zip(found[name] + [None], wanted[name] + [None])
            return f"{name}: {next(it for it in pairs if it[0] != it[1])}"
    return None
