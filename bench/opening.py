#!/usr/bin/env python3
"""How long the opening of a file takes, at 100,000 deposits with three small files each and as many holds.

The same deposits are opened in the tables of today, in those of versions 3 and 1, in those of today without each
of the indexes that have entries, and with an index more on the class or the collection of deposits. Prints the
size of each file and the seconds of each, elapsed and of the processor, beside those of the tables of today:
medians of runs that take turns (RUNS=n, 7 if left out). The program crates/trial_office, which opens them, has to
be built.
"""
import re
import resource
import time
from statistics import median

from trial_office import DEPOSITS, RUNS, main, opened, ours
from shared.stores import EMPTIED, NEWEST, SCHEMA, VERSION_3, newest_of
from stores import small_bag, stored

TEXTS = "".join(f"{text};\n" for text in SCHEMA)
TEXTS_3 = "".join(f"{text};\n" for text in VERSION_3)
INDEX = r"CREATE INDEX {} ON .*\n"
CONTENT = r"content INTEGER NOT NULL REFERENCES content \(id\)"
WHOLE_FILES = "(SELECT deposit, path, bytes AS content FROM base.file JOIN base.content ON id = content)"


def version_1():
    """The tables of version 1: each file's content in its row, and no due days or counts of holds."""
    texts = re.sub(CONTENT, "content BLOB NOT NULL", TEXTS_3)
    texts = texts.replace(", due INTEGER, holds INTEGER NOT NULL", "")
    indexes = map(INDEX.format, ("file_content", "content_mark", "deposit_due"))
    for gone in (r"CREATE TABLE content .*\n", *indexes):
        texts = re.sub(gone, "", texts)
    return texts


def layouts():
    """The texts of the tables, by what is other in them."""
    found = {"the tables of today": TEXTS, "version 3": TEXTS_3, "version 1": version_1()}
    for name, table in re.findall(r"CREATE INDEX (\w+) ON (\w+)", TEXTS):
        if table not in EMPTIED:
            found[f"without {name}"] = re.sub(INDEX.format(name), "", TEXTS)
    found["without the index of accessions"] = TEXTS.replace(" UNIQUE", "")
    found["without the index of paths"] = TEXTS.replace(", PRIMARY KEY (deposit, path)", "")
    for column in ("class", "collection"):
        name = f"{DEPOSITS}_{column}"
        found[f"with {name}"] = f"{TEXTS}CREATE INDEX {name} ON {DEPOSITS} ({column});\n"
    return found


def rows_for(table, texts):
    """Where the base has the rows of a table of these texts."""
    if table == "file" and "content BLOB" in texts:
        return WHOLE_FILES
    name = table.split("_")[0]
    is_newest = newest_of(texts.splitlines())[name] == table
    return f"base.{NEWEST[name] if is_newest else table}"


def laid_out(base, name, texts):
    """The rows of the file in tables of these texts, in a file beside it."""
    file = base.with_name(f"{name}.db")
    connection = opened(file)
    connection.execute("PRAGMA foreign_keys = OFF")
    connection.executescript(texts)
    connection.execute("ATTACH ?1 AS base", (str(base),))
    connection.execute("BEGIN")
    for table in re.findall(r"CREATE TABLE (\w+)", texts):
        columns = ", ".join(it[1] for it in connection.execute(f"PRAGMA main.table_info({table})"))
        connection.execute(f"INSERT INTO main.{table} ({columns}) SELECT {columns} FROM {rows_for(table, texts)}")
    connection.execute("COMMIT")
    connection.execute("PRAGMA wal_checkpoint(TRUNCATE)").fetchall()
    connection.close()
    return file


def seconds(file):
    """The seconds that the program takes to open and close the file: elapsed, and of the processor."""
    begin, before = time.perf_counter(), resource.getrusage(resource.RUSAGE_CHILDREN)
    ours("last", file, 0)
    took, after = time.perf_counter() - begin, resource.getrusage(resource.RUSAGE_CHILDREN)
    return took, after.ru_utime + after.ru_stime - before.ru_utime - before.ru_stime


def opening(folder):
    """The opening in each layout."""
    base = stored(folder, "opened", 100_000, lambda number: {"held": True}, bag=small_bag)
    files = {name: laid_out(base, name, texts) for name, texts in layouts().items()}
    found = {name: [] for name in files}
    for _ in range(RUNS):
        for name, file in files.items():
            found[name].append(seconds(file))
    figures = {name: list(map(median, zip(*took))) for name, took in found.items()}
    today = figures["the tables of today"]
    for name, (took, processor) in figures.items():
        size = files[name].stat().st_size / 2**20
        each = f"{took:.2f} seconds, {processor:.2f} of the processor"
        print(f"{name}: {size:.1f} MiB, {each} ({processor - today[1]:+.2f})", flush=True)


if __name__ == "__main__":
    main({"opening": opening})
