#!/usr/bin/env python3
"""Parts of `export.sh`: makes bags, and compares what `examples/export` wrote with them and with the office.

- `make FOLDER`: many kinds of bags in FOLDER, and a list for `fill` on standard output;
- `folders LIST EXPORT OFFICE CALLER`: each deposit that CALLER may list has its folder, with the files of the bag that
  was deposited, byte for byte, and each folder belongs to such a deposit;
- `registers EXPORT OFFICE CALLER`: deposits.csv and holds.csv say what the office answers CALLER, and what the forms
  are;
- `tables EXPORT COPY OFFICE`: the registers of the copy say what its tables have, and what the office answers `anna`;
- `valid EXPORT`: each folder is a valid bag, as this file reads RFC 8493, and by bagit.py where it can be imported;
- `rot COPY ACCESSION`: changes a byte of a payload in a store.

Each part prints the number of its cases; where something differs, it prints that and ends with 1.
"""
import csv
import hashlib
import json
import os
import pathlib
import random
import re
import sqlite3
import sys
import unicodedata

from shared import offices
from shared.comparing import compare, compared, fail
from shared.days import date
from shared.forms import bag, files_below, form, lay
from shared.stores import NEWEST

# --- Bags ---


def bag_of(payload, version="1.0", algorithms=("sha256",), tagged=(), tags=None, info=False):
    """The files of a bag, by their paths; with `info` a bag-info.txt is among them."""
    more = {name.encode(): content for name, content in (tags or {}).items()}
    if info:
        oxum = f"{sum(map(len, payload.values()))}.{len(payload)}"
        more[b"bag-info.txt"] = (
            f"Source-Organization: Büro\n of the maps\nPayload-Oxum: {oxum}\nBagging-Date: 2024-02-29\n".encode()
        )
    return bag(
        {b"data/" + name.encode(): content for name, content in payload.items()}, algorithms, tagged, version, more
    )


def kinds():
    """Name, collection, class, closing day and files of each bag."""
    some = random.Random(7)
    both = ("sha256", "sha512")
    nfd = unicodedata.normalize("NFD", "Büro.txt")
    upper = bag_of({"a": b"abc", "b c": b"x"})
    digests = re.sub(rb"(?m)^[0-9a-f]{64}", lambda m: m[0].upper(), upper[b"manifest-sha256.txt"])
    upper[b"manifest-sha256.txt"] = b"\r\n \n" + digests.replace(b"\n", b"\r\n")
    yield "plain", "maps", "y0", "2024-02-29", bag_of({"a": b"abc"})
    yield "old", "maps", "y10", "1900-01-01", bag_of(
        {"a": b"abc", "100%25": b"per", "%41": b"A", "two\nlines": b"2"}, "0.97"
    )
    yield "sha512", "tax", "y1", "1999-12-31", bag_of({"a": b"abc" * 100}, algorithms=("sha512",))
    yield "both", "tax", "good", "2024-02-29", bag_of({"a": b"1", "b/c": b"2"}, algorithms=both, tagged=both, info=True)
    yield "empty", "maps", "y1", "2023-02-28", bag_of({"nothing": b"", "some": b"x"}, info=True)
    yield "none", "letters", "good", "2024-02-29", bag_of({}, info=True)
    coded = {"100%": b"1", "a%25b": b"2", "%0A": b"3", "line\nfeed\r": b"4", "end ": b"5"}
    yield "percent", "letters", "y10", "2024-02-29", bag_of(coded)
    blanks = {"a b  c/d e": b"1", " first": b"2", "tab\there": b"3", "'\"\\$*?[": b"4"}
    yield "blanks", "letters", "y10", "2024-02-29", bag_of(blanks, algorithms=both)
    yield "letters-of-others", "letters", "y10", "2024-02-29", bag_of(
        {"Büro/中文 😀.txt": b"1", "Ω": b"2"}, tagged=("sha256",)
    )
    yield "apart", "letters", "y0", "2024-02-29", bag_of({nfd: b"1"})
    yield "many", "maps", "y10", "2020-01-31", bag_of(
        {f"{n % 17}/{n}": b"%d" % (n % 40) for n in range(300)}, info=True
    )
    shared = some.randbytes(4000)
    yield "shared-1", "maps", "y0", "2024-02-29", bag_of({"same": shared, "own": b"1"})
    yield "shared-2", "tax", "y10", "2024-02-29", bag_of({"same": shared, "other": b"2", "again": shared})
    deep, tags = {"/".join("abcdefgh" * 8): b"deep", ".hidden/.x": b"h"}, {"notes/a": b"tag", ".tag": b"t"}
    yield "deep", "tax", "y1", "2024-02-29", bag_of(deep, tags=tags, tagged=("sha512",))
    yield "upper", "maps", "y1", "2024-02-29", upper
    yield "large", "maps", "good", "2024-02-29", bag_of(
        {"large": some.randbytes(100000)}, "0.97", both, ("sha256",), info=True
    )
    yield "destroyed-1", "maps", "y0", "2024-01-01", bag_of({"a": b"to go"})
    yield "destroyed-2", "tax", "y0", "2024-01-02", bag_of({"same": shared})
    yield "long", "long", "y10", "2024-02-29", bag_of({"x" * 300: b"long"})


def make(folder):
    for name, collection, class_, closed, files in kinds():
        path = os.path.join(folder, name)
        if name == "long":
            path += ".bagset"
            pathlib.Path(path).write_bytes(form(files))
        else:
            lay(path, files)
        print(path, collection, class_, f"{name.upper()}.1", closed, sep="\t")


# --- Folders ---


def folders_below(folder):
    """The paths of the folders below a folder."""
    folder = os.fsencode(folder)
    return {os.path.relpath(os.path.join(at, name), folder) for at, below, _ in os.walk(folder) for name in below}


def ask(office, caller, target):
    return offices.ask(office.removeprefix("http://"), "GET", target, caller=caller)


def records(office, caller):
    return json.loads(ask(office, caller, "/deposits")[1])["deposits"]


def folders(bags, export, office, caller):
    lines = [line.split("\t") for line in pathlib.Path(bags).read_text().splitlines()]
    originals = {accession: folder for folder, _, _, accession, _ in lines}
    listed = {record["deposit"]: record["accession"] for record in records(office, caller)}
    compare("the folders", sorted(map(str, listed)), sorted(os.listdir(f"{export}/deposits")))
    for number, accession in listed.items():
        there = f"{export}/deposits/{number}"
        files = files_below(there)
        compare(f"the files of {accession}", files_below(originals[accession]), files)
        needed = {b"data"} | {path.rsplit(b"/", n)[0] for path in files for n in range(1, path.count(b"/") + 1)}
        compare(f"the folders of {accession}", needed, folders_below(there))


# --- Registers ---


def register(export, name):
    """The rows of a register, each by its columns."""
    content = pathlib.Path(export, name).read_bytes()
    compare(f"the lines of {name}", content.count(b"\n"), content.count(b"\r\n"))
    compare(f"the end of {name}", b"\r\n", content[-2:])
    rows = list(csv.DictReader(content.decode().splitlines(keepends=True), strict=True))
    compare(f"the columns of {name}", True, all(None not in row and None not in row.values() for row in rows))
    return rows


def registers(export, office, caller):
    rows, holds = {row["deposit"]: row for row in register(export, "deposits.csv")}, register(export, "holds.csv")
    listed = records(office, caller)
    compare("the deposits", [str(record["deposit"]) for record in listed], list(rows))
    covering = []
    for record in listed:
        number = record["deposit"]
        row = rows[str(number)]
        status, answer = ask(office, caller, f"/deposits/{number}/holds")
        live = json.loads(answer)["holds"] if status == 200 else []
        for hold in live:
            covering.append(
                {"deposit": str(number), **{key: str(hold[key]) for key in ("hold", "on", "matter", "placed")}}
            )
        record["holds"] = len(live) if status == 200 else "denied"
        status, answer = ask(office, caller, f"/deposits/{number}/bag")
        record["sha256"] = hashlib.sha256(answer).hexdigest() if status == 200 else ""
        places = f"deposits/{number}", f"forms/{number}.bagset"
        record["place"] = next((place for place in places if os.path.exists(f"{export}/{place}")), "")
        compare(f"whether {number} is there", status == 200, record["place"] != "")
        compare(f"the row of {number}", {key: str(value) for key, value in record.items()}, row)
    compare("the holds", covering, holds)
    compare("that there are some", True, len(holds) > 3 or caller == "half")
    columns = "place", "collection", "class", "accession", "closed"
    wanted = [[row[name] for name in columns] for row in rows.values() if row["place"]]
    lines = pathlib.Path(export, "bags.list").read_text().splitlines()
    compare("bags.list", wanted, [line.split("\t") for line in lines])


def day(number):
    return "" if number is None else date(number)


def tables(export, copy, office):
    store = sqlite3.connect(f"file:{copy}?immutable=1", uri=True)
    store.row_factory = sqlite3.Row
    destroyed(export, store, office)
    all_holds(export, store, office)
    years = {
        row[0]: "permanent" if row[1] < 0 else str(row[1]) for row in store.execute("SELECT name, years FROM class")
    }
    compare("classes", years, {row["class"]: row["years"] for row in register(export, "classes.csv")})
    names = {row[0] for row in store.execute("SELECT name FROM collection")}
    compare("collections", names, {row["collection"] for row in register(export, "collections.csv")})


def destroyed(export, store, office):
    """The register of destroyed deposits has the rows of the table, and the office says of each that it is gone."""
    gone = list(store.execute(f"SELECT * FROM {NEWEST['deposit']} WHERE gone IS NOT NULL ORDER BY number"))
    rows = register(export, "destroyed.csv")
    compare("the destroyed", [row["number"] for row in gone], [int(row["deposit"]) for row in rows])
    compare("that some are", True, len(gone) >= 2)
    for wanted, row in zip(gone, rows):
        status, answer = ask(office, "anna", f"/deposits/{row['deposit']}")
        compare("it is gone", (410, row["destroyed"]), (status, json.loads(answer)["day"]))
        for key in ("accession", "collection", "class", "files", "bytes"):
            compare(f"{key} of {row['deposit']}", str(wanted[key]), row[key])
        for key, column in (("closed", "closed"), ("deposited", "deposited"), ("gone", "destroyed")):
            compare(f"{key} of {row['deposit']}", day(wanted[key]), row[column])


def all_holds(export, store, office):
    """The register of all holds has the rows of the table, and the live ones are those of the office's deposits."""
    rows = register(export, "all_holds.csv")
    holds = []
    for row in store.execute(f"SELECT * FROM {NEWEST['hold']} ORDER BY number"):
        on = next(key for key in ("deposit", "collection", "class") if row[key] is not None)
        days = {"placed": day(row["placed"]), "released": day(row["released"])}
        holds.append({"hold": str(row["number"]), "on": on, "name": str(row[on]), "matter": row["matter"], **days})
    compare("all holds", holds, rows)
    compare("that some are released and some aren't", {True, False}, {row["released"] == "" for row in rows})
    lists = [
        json.loads(ask(office, "anna", f"/deposits/{it['deposit']}/holds")[1])["holds"]
        for it in records(office, "anna")
    ]
    live = {str(hold["hold"]) for holds in lists for hold in holds}
    compare("the live ones that cover a deposit", live, {row["hold"] for row in rows if row["released"] == ""})


# --- Validity ---


def listed(text, version):
    escapes = rb"%(0[AD]|25)" if version == "1.0" else rb"%(0[AD])"
    lines = [line for line in re.split(rb"\r\n|\r|\n", text) if line.strip(b" \t")]
    sums = {}
    for line in lines:
        digest, path = re.fullmatch(rb"([0-9A-Fa-f]+)[ \t]+(.+)", line, re.S).groups()
        sums[re.sub(escapes, lambda m: bytes([int(m[1], 16)]), path, flags=re.I)] = digest.decode().lower()
    compare("lines for one path", len(lines), len(sums))
    return sums


def judge(folder):
    """Whether it is a complete and valid bag, as RFC 8493 has it."""
    files = files_below(folder)
    compare(f"{folder}: its data", True, b"data" in folders_below(folder))
    lines = files[b"bagit.txt"].decode().splitlines()
    version = lines[0].removeprefix("BagIt-Version: ")
    compare(
        f"{folder}: bagit.txt",
        True,
        version in ("0.97", "1.0") and lines[1:] == ["Tag-File-Character-Encoding: UTF-8"],
    )
    payload = {path for path in files if path.startswith(b"data/")}
    manifests = [name for name in files if re.fullmatch(rb"(tag)?manifest-[a-z0-9]+\.txt", name)]
    compare(f"{folder}: a manifest", True, any(name.startswith(b"manifest") for name in manifests))
    for name in manifests:
        algorithm = name.decode().split("-")[1].removesuffix(".txt")
        sums = listed(files[name], version)
        for path, digest in sums.items():
            compare(f"{folder}: {name!r} has {path!r}", digest, hashlib.new(algorithm, files[path]).hexdigest())
        if name.startswith(b"manifest"):
            compare(f"{folder}: the payload", payload, set(sums))
    oxum = re.search(rb"^Payload-Oxum: (\d+)\.(\d+)$", files.get(b"bag-info.txt", b""), re.M)
    if oxum:
        compare(
            f"{folder}: its size",
            (sum(len(files[p]) for p in payload), len(payload)),
            tuple(map(int, oxum.groups())),
        )
    # (a reader may leave %25 as it is, and drop blanks at the end of a name: bagit.py isn't asked about such names)
    return version == "1.0" and any(b"%" in path or path.endswith(b" ") for path in payload)


def valid(export):
    """Prints also how many bags bagit.py took, if it is there."""
    try:
        import bagit
    except ImportError:
        bagit = None
    taken = 0
    for name in sorted(os.listdir(f"{export}/deposits"), key=int):
        folder = f"{export}/deposits/{name}"
        is_read_otherwise = judge(folder)
        if bagit and not is_read_otherwise:
            try:
                bagit.Bag(folder).validate()
            except bagit.BagError as error:
                fail(f"bagit.py refuses {folder}: {error}")
            taken += 1
    if bagit:
        print(f"bagit.py {bagit.VERSION} takes {taken} of the folders", file=sys.stderr)


def rot(copy, accession):
    store = sqlite3.connect(copy)
    number, content = store.execute(
        f"SELECT content.id, content.bytes FROM content, file, {NEWEST['deposit']} AS it"
        " WHERE content.id = file.content AND file.deposit = it.number AND accession = ? AND path LIKE 'data/%'",
        (accession,),
    ).fetchone()
    store.execute("UPDATE content SET bytes = ? WHERE id = ?", (bytes([content[0] ^ 1]) + content[1:], number))
    store.commit()
    compare("the log is folded", 0, store.execute("PRAGMA wal_checkpoint(TRUNCATE)").fetchone()[0])
    store.close()


PARTS = {"make": make, "folders": folders, "registers": registers, "tables": tables, "valid": valid, "rot": rot}


def main():
    part, *words = sys.argv[1:]
    PARTS[part](*words)
    if part != "make":
        print(compared())


if __name__ == "__main__":
    main()
