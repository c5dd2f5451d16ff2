#!/usr/bin/env python3
"""Random sessions of an office, as records for `depot replay`. Each payload names its content in each of its pieces and
in its path, so that what is left of a destroyed content is found anywhere. The first argument says what is made:

- `policy VERSION`: a policy such as an office with tables of that version, from 3 on, can have;
- `fill SEED VERSION DEPOSITS CONTENTS`: an office with this number of deposits, most of them destroyed in the end, with
  holds of each kind that the version has, and releases. Writes into the file CONTENTS which contents each accession
  has;
- `more SEED VERSION DEPOSITS`: further requests on that office, which change it;
- `reads DEPOSITS HOLDS`: requests of each route that change nothing, by two callers and without one, on several days;
- `traces CONTENTS OFFICE FILE..`: how many destroyed contents there are by the tables of the office, and how many of
  them have left something in the files: `60 0`.
"""
import datetime
import json
import random
import re
import sqlite3
import sys

from shared import forms, policies, requests
from shared.policies import allow, deny
from shared.requests import deposit_target, request
from shared.stores import NEWEST

FIRST = datetime.date(2020, 1, 1)
LAST = datetime.date(2024, 3, 1)
CLASSES = {"y0": 0, "y1": 1, "y10": 10, "kept.forever": None, "never-used": 3}
COLLECTIONS = ["maps", "tax", "a.b_c-9", "-", "empty"]
MATTERS = [
    "Case 7", "O'Neil \"versus\" the Treasury", "Prüfung – Größe 5; €", "'; DROP TABLE hold_4; --",
    "%s|\\n, \U0001f4dc", " ",
]
QUERIES = ["collection=maps", "class=y0", "collection=tax&class=y10", "collection=none", "class=kept.forever", "a=b"]
# What is asked of a deposit.
ENDS = ["", "/holds", "/audit", "/bag", "/files/bagit.txt", "/files/manifest-sha256.txt"]
CALLERS = {"anna": "archivist", "carl": "clerk", "ben.b": "clerk"}


def policy(version):
    """The text of a policy: from version 5 on two rules have days."""
    until, since = ({"last": "2022-12-31"}, {"first": "2021-05-01", "last": "2024-02-29"}) if version > 4 else ({}, {})
    return policies.policy(
        CALLERS,
        deny("archivist", "dispose", "a.b_c-9", "y1", **until),
        allow("archivist", "*"),
        allow("clerk", "list", "maps", **since),
        allow("clerk", "holds", "*", "y10"),
    )


def record(day, method, target, body=b"", caller="anna"):
    return requests.record(day, request(method, target, body, caller))


def payload(content, size):
    """The bytes of a content: pieces that name it."""
    draw = random.Random(content)
    return b"".join(b"{C%05d:%012x}" % (content, draw.getrandbits(48)) for _ in range(size))


def bag(contents):
    """The transfer form of a bag with these contents, by their numbers, and their sizes."""
    return forms.form(forms.bag({b"data/P%05d" % it: payload(it, size) for it, size in contents.items()}))


def hold(draw, version, deposits):
    kinds = ["deposit", "collection"] + ["class"] * (version > 3)
    target = {
        "deposit": lambda: draw.randint(1, deposits),
        "collection": lambda: draw.choice(COLLECTIONS),
        "class": lambda: draw.choice(list(CLASSES)),
    }
    kind = draw.choice(kinds)
    return json.dumps({kind: target[kind](), "matter": draw.choice(MATTERS)}, ensure_ascii=False).encode()


def deposit(draw, day, accession, contents):
    class_ = draw.choice(["y0", "y0", "y0", "y1", "y1", "y10", "kept.forever"])
    closed = day - datetime.timedelta(days=draw.choice([0, 0, 30, 400, 5000]))
    target = deposit_target(accession, draw.choice(COLLECTIONS[:4]), class_, closed)
    return record(day, "POST", target, bag(contents))


def fill(seed, version, deposits, contents_file):
    """The requests that fill an office. Its file of contents is written."""
    draw = random.Random(seed)
    classes = [(name, json.dumps({"years": years}).encode()) for name, years in CLASSES.items()]
    out = [record(FIRST, "PUT", f"/classes/{name}", body) for name, body in classes]
    out += [record(FIRST, "PUT", f"/collections/{name}") for name in COLLECTIONS]
    made, placed, has = deposited(draw, version, deposits)
    out += made
    day = LAST - datetime.timedelta(days=200)
    for number, it in enumerate(placed, 1):
        # (a hold of a deposit that was destroyed isn't placed, so some of these numbers have none)
        if b'"deposit"' not in it or draw.random() < 0.6:
            out.append(record(day + datetime.timedelta(days=number % 5), "DELETE", f"/holds/{number}"))
    out.append(record(day, "PUT", "/classes/y10", b'{"years":3}'))
    day += datetime.timedelta(days=10)
    for number in range(1, deposits + 1):
        if number % 4:
            out.append(record(day + datetime.timedelta(days=number % 7), "DELETE", f"/deposits/{number}"))
    out.append(record(LAST, "PUT", "/classes/y10", b'{"years":10}'))
    out += [record(LAST, "POST", "/holds", hold(draw, version, deposits)) for _ in range(8)]
    with open(contents_file, "w", encoding="ascii") as file:
        json.dump(has, file)
    return out


def deposited(draw, version, deposits):
    """Requests of deposits, with holds and disposals among them; the bodies of the holds; and the contents of each
    accession."""
    out, placed, has = [], [], {}
    # content 0 is empty; those before 10 are shared
    sizes = {0: 0, **{it: draw.randint(1, 400) for it in range(1, 10)}}
    day, content = FIRST, 10
    for number in range(1, deposits + 1):
        day += datetime.timedelta(days=draw.randint(0, 500 // deposits))
        mine = {}
        for _ in range(draw.randint(1, 4)):
            mine[content] = draw.choice([1, 2, 20, 300, 3000])
            content += 1
        for it in draw.sample(range(10), draw.randint(0, 3)):
            mine[it] = sizes[it]
        accession = f"{number:03d}-" + draw.choice(["A", "b_7", "C.d", "z" * 40])
        has[accession] = sorted(mine)
        out.append(deposit(draw, day, accession, mine))
        if draw.random() < 0.4:
            placed.append(hold(draw, version, number))
            out.append(record(day, "POST", "/holds", placed[-1]))
        if draw.random() < 0.2:
            out.append(record(day, "DELETE", f"/deposits/{draw.randint(1, number)}"))
    return out, placed, has


def more(seed, version, deposits):
    """Changes and refusals after that."""
    draw = random.Random(seed)
    day, out, number = LAST, [], deposits
    for _ in range(60):
        day += datetime.timedelta(days=draw.randint(0, 40))
        match draw.randrange(6):
            case 0:
                mine = {draw.randint(20000, 20020): draw.choice([1, 30, 900]), draw.randint(1, 9): 5}
                number += 1
                out.append(deposit(draw, day, f"N-{draw.randint(1, 40)}", mine))
            case 1:
                out.append(record(day, "POST", "/holds", hold(draw, version, number)))
            case 2:
                out.append(record(day, "DELETE", f"/holds/{draw.randint(1, 40)}"))
            case 3:
                name = draw.choice([*CLASSES, "new"])
                out.append(record(day, "PUT", f"/classes/{name}", b'{"years":%d}' % draw.randint(0, 5)))
            case 4:
                name, caller = draw.choice(["new", "maps"]), draw.choice(["anna", "carl"])
                out.append(record(day, "PUT", f"/collections/{name}", caller=caller))
            case 5:
                one, caller = draw.randint(1, number), draw.choice(["anna", "anna", "carl"])
                out.append(record(day, "DELETE", f"/deposits/{one}", caller=caller))
    return out + reads(number, 40)


def reads(deposits, holds):
    out = []
    days = [FIRST, datetime.date(2021, 6, 1), LAST, datetime.date(2034, 1, 1)]
    for caller in ("anna", "carl", ""):
        for day in days:
            out.append(record(day, "GET", "/due", caller=caller))
            out.append(record(day, "GET", "/deposits", caller=caller))
        for query in QUERIES:
            out.append(record(LAST, "GET", f"/deposits?{query}", caller=caller))
        for number in range(deposits + 2):
            for end in [*ENDS, "/files/data/P%05d" % (number % 10), "/files/none"]:
                out.append(record(LAST, "GET", f"/deposits/{number}{end}", caller=caller))
        # of the routes that change something, what is refused
        out.append(record(LAST, "GET", "/nothing", caller=caller))
        out.append(record(LAST, "PUT", "/classes/y1", b"{}", caller=caller))
        out.append(record(LAST, "POST", "/holds", b'{"deposit":9999999,"matter":"x"}', caller=caller))
        out.append(record(LAST, "DELETE", f"/holds/{holds + 1000}", caller=caller))
        out.append(record(LAST, "DELETE", "/deposits/9999999", caller=caller))
        out.append(record(LAST, "POST", deposit_target("A", class_="y0", closed="2030-01-01"), b"x", caller))
        out.append(record(LAST, "PUT", "/collections/maps/", caller=caller))
    return out


def traces(contents_file, office, files):
    with open(contents_file, encoding="ascii") as file:
        has = json.load(file)
    base = sqlite3.connect(f"file:{office}?immutable=1", uri=True)
    kept, gone = set(), set()
    for accession, day in base.execute(f"SELECT accession, gone FROM {NEWEST['deposit']}"):
        (kept if day is None else gone).update(has[accession])
    base.close()
    gone -= kept | {0}
    found = set()
    for name in files:
        with open(name, "rb") as file:
            data = file.read()
        found.update(int(it) for it in re.findall(rb"\{C(\d{5}):", data))
        found.update(int(it) for it in re.findall(rb"data/P(\d{5})", data))
    return len(gone), len(gone & found)


def main():
    word, *rest = sys.argv[1:]
    if word == "policy":
        print(policy(int(rest[0])), end="")
    elif word == "traces":
        print(*traces(rest[0], rest[1], rest[2:]))
    else:
        if word == "fill":
            out = fill(*map(int, rest[:3]), rest[3])
        elif word == "more":
            out = more(*map(int, rest))
        else:
            out = reads(*map(int, rest))
        sys.stdout.buffer.write(b"".join(out))


if __name__ == "__main__":
    main()
