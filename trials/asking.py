#!/usr/bin/env python3
"""Compares what `sqlite3` answers to each question of `examples/asking.sql` with what the office itself answers. The
questions are asked of copies of offices, after random sessions:

- the rules, with the one that `depot explain` names, on the days on which rules begin and end, and on the days beside
  these;
- classes, collections and releases, with the answers to the requests that made them;
- holds, with the lists of the holds on each deposit;
- destroyed deposits, with the refusals that name their day;
- an accession, with the record, or with the refusal of another deposit of that name;
- what is due, with the due list and the records.

Some offices have older versions, and are upgraded. Some deposits have the first and the last days that there are.

Needs sqlite3. Arguments: the program; by default that of the variable DEPOT, or the built one.
"""
import datetime
import json
import os
import pathlib
import random
import re
import shutil
import subprocess
import sys
import tempfile
import tomllib

import sessions
from needs import needs
from shared import offices
from shared.comparing import compare, compared, fail
from shared.places import TOP, depot
from shared.requests import deposit_target, parts, records_in
from shared.stores import VERSION

QUESTIONS = TOP / "examples/asking.sql"
NAMES = "callers", "rules", "classes", "collections", "holds", "destroyed", "accession", "due"
SAME_OF_RECORD = "deposit", "accession", "collection", "class", "closed", "deposited", "files", "bytes", "due"
SEEDS = range(1, 9)
DEPOSITS = 24
LAST = sessions.LAST + datetime.timedelta(days=2400)
END = datetime.date(9799, 12, 31)
# The actions that `depot explain` is asked about, each with a collection and a class.
EXPLAINED = [("dispose", "a.b_c-9", "y1"), ("list", "maps", "y0"), ("holds", "tax", "y10"), ("class", "-", "y1")]


def replay(program, store, records):
    """The statuses and the bodies of the answers."""
    ended = offices.replay(program, store, records)
    answers, rest = records_in(ended.stdout)
    if ended.returncode or rest:
        fail(f"a replay ends with {ended.returncode}, {ended.stderr!r} and, after its answers, {rest!r}")
    for answer in answers:
        status, fields, body = parts(answer)
        yield status, json.loads(body) if ("Content-Type", "application/json") in fields else body


def asked(store, **parameters):
    """What `sqlite3` says of a copy of the file: the rows of each question."""
    copy = store.with_name("copy.db")
    shutil.copyfile(store, copy)
    words = [it for name, value in parameters.items() for it in ("-cmd", f".parameter set :{name} \"'{value}'\"")]
    with open(QUESTIONS, "rb") as questions:
        command = ["sqlite3", "-readonly", "-json", "-batch", "-bail", *words, copy]
        run = subprocess.run(command, stdin=questions, capture_output=True, timeout=300)
    if run.returncode or run.stderr:
        fail(f"sqlite3 ended with {run.returncode}: {run.stderr.decode()}")
    compare("the copy is as it was", store.read_bytes(), copy.read_bytes())
    blocks = re.split(r"^-- .*\n", run.stdout.decode(), flags=re.MULTILINE)
    compare("questions", [""] + list(NAMES), [blocks[0]] + list(NAMES[:len(blocks) - 1]))
    return {name: json.loads(block) if block.strip() else [] for name, block in zip(NAMES, blocks[1:])}


def get(target, day=LAST, caller="anna"):
    return sessions.record(day, "GET", target, caller=caller)


class Office:
    """An office after a session, with what was asked and answered, and what `sqlite3` says of its copy."""

    def __init__(self, program, folder, seed, version):
        self.program, self.folder, self.store = program, folder, folder / "office.db"
        for it in folder.iterdir():
            it.unlink()
        self.policy = sessions.policy(version)
        (folder / "policy").write_text(self.policy, encoding="utf-8")
        offices.make_office(program, self.store, folder / "policy")
        self.version = self.fill(seed, version)
        self.records = self.records_kept()
        self.kept = [it for it in self.records.values() if it]
        self.draw, self.day = random.Random(seed), LAST
        self.within = self.draw.choice([0, 1, 30, 400, 4000, 100000, 2900000])
        self.told = asked(self.store, day=self.day, within=self.within)

    def ask(self, requests):
        return list(replay(self.program, self.store, requests))

    def fill(self, seed, version):
        """The session. Gives the version of the tables that are left."""
        self.requests = sessions.fill(seed, version, DEPOSITS, self.folder / "contents") + first_and_last()
        self.answers = self.ask(self.requests)
        if version < VERSION:
            words = [sys.executable, TOP / "trials/older.py", self.store]
            made = subprocess.run(words, check=True, capture_output=True, text=True, timeout=60).stdout
            return int(made.split()[0])
        more = sessions.more(seed, version, DEPOSITS)
        self.requests, self.answers = self.requests + more, self.answers + self.ask(more)
        return version

    def records_kept(self):
        """The record of each deposit by its number, or nothing where it is gone. This upgrades a store of an older
        version."""
        self.last = max(body["deposit"] for status, body in self.answers if status == 201 and "deposit" in body)
        numbers, records = range(1, self.last + 1), {}
        for number, (status, body) in zip(numbers, self.ask([get(f"/deposits/{n}") for n in numbers])):
            records[number] = body if status == 200 else None
            compare(f"deposit {number} is kept or gone", True, status == 200 or body["error"] == "Gone")
        return records

    def accepted(self):
        """The bodies of the requests that were accepted."""
        return [body for status, body in self.answers if status == 200 and isinstance(body, dict)]


def first_and_last():
    """Requests on the first and the last day: of a closing and of a deposit."""
    records = [sessions.record(LAST, "PUT", "/classes/y200", b'{"years":200}')]
    for n, (day, closed) in enumerate([(LAST, "1900-01-01"), (END, "9799-12-31"), (END, "2024-02-29")]):
        target = deposit_target(f"2024-{n}", class_="y200", closed=closed)
        records.append(sessions.record(day, "POST", target, sessions.bag({n: 3})))
    return records


def policy_is(office):
    """The policy that `sqlite3` finds is the one that was installed."""
    told, wanted = office.told, tomllib.loads(office.policy)
    callers = [{"caller": it, "role": role} for it, role in sorted(wanted["callers"].items())]
    compare("the callers", callers, told["callers"])
    rules = [{"rule": n, "first": None, "last": None} | it for n, it in enumerate(wanted["rule"], 1)]
    compare("the rules", rules, told["rules"])
    policy = office.folder / "policy.toml"
    policy.write_text(office.policy, encoding="utf-8")
    for day in days_about(told["rules"]):
        for caller in ("anna", "carl", "eve"):
            for action, collection, class_ in EXPLAINED:
                role = wanted["callers"].get(caller, "stranger")
                asked = None if collection == "-" else collection
                deciding = first_match(told["rules"], role, action, asked, class_, str(day))
                said = f"{deciding['effect']} rule {deciding['rule']}" if deciding else "deny default"
                words = [office.program, "explain", "--day", str(day), policy, caller, action, collection, class_]
                run = subprocess.run(words, capture_output=True, timeout=60, text=True)
                compare(f"{caller} {action} {collection} {class_} on {day}", said, run.stdout.strip())


def days_about(rules):
    """A day, and those on which rules begin and end, with the days beside these."""
    days = {datetime.date(2024, 3, 1)}
    for it in rules:
        for end in (it["first"], it["last"]):
            if end:
                days |= {datetime.date.fromisoformat(end) + datetime.timedelta(days=n) for n in (-1, 0, 1)}
    return sorted(days)


def first_match(rules, role, action, collection, class_, day):
    """The rule that decides, or nothing."""
    return next((it for it in rules if matches(it, role, action, collection, class_, day)), None)


def matches(rule, role, action, collection, class_, day):
    pairs = (rule["role"], role), (rule["action"], action), (rule["collection"], collection), (rule["class"], class_)
    return all(it in ("*", value) for it, value in pairs) and (rule["first"] or "") <= day <= (rule["last"] or "9999")


def may_dispose(rules, it, day):
    """The rules allow the archivist to destroy the deposit."""
    return first_match(rules, "archivist", "dispose", it["collection"], it["class"], day)["effect"] == "allow"


def names_are(office):
    """Classes and collections are as they were answered last, with the number of their deposits."""
    years, collections = {}, set()
    for body in office.accepted():
        if body.keys() == {"class", "years"}:
            years[body["class"]] = "permanent" if body["years"] is None else body["years"]
        elif body.keys() == {"collection"}:
            collections.add(body["collection"])
    told = office.told
    compare("the classes", sorted(years.items()), [(it["class"], it["years"]) for it in told["classes"]])
    compare("the collections", sorted(collections), [it["collection"] for it in told["collections"]])
    for kind, names in (("class", told["classes"]), ("collection", told["collections"])):
        lists = office.ask([get(f"/deposits?{kind}={it[kind]}") for it in names])
        for it, (_, body) in zip(names, lists):
            compare(f"the kept of {it}", len(body["deposits"]), it["kept"])
    for part in ("classes", "collections"):
        compare(f"the deposits of all {part}", office.last, sum(it["kept"] + it["destroyed"] for it in told[part]))


def holds_are(office):
    """Holds are as they were asked and answered, and as each deposit's list has them. Gives the lists, and how many
    holds were placed and how many released."""
    numbers = [it["deposit"] for it in office.kept]
    over = dict(zip(numbers, office.ask([get(f"/deposits/{number}/holds") for number in numbers])))
    covers, shown = {}, {}
    for number, (_, body) in over.items():
        for it in body["holds"]:
            covers.setdefault(it["hold"], set()).add(number)
            shown[it["hold"]] = it
    placed = [body["hold"] for status, body in office.answers if status == 201 and "hold" in body]
    released = {body["hold"]: body["released"] for body in office.accepted() if "released" in body}
    told = office.told["holds"]
    compare("the numbers of the holds", placed, sorted(it["hold"] for it in told))
    compare("live ones come first", sorted(told, key=lambda it: (it["state"] == "released", it["hold"])), told)
    made = dict(zip(placed, placed_by(office.requests, office.answers)))
    for it in told:
        hold_is(office, it, made[it["hold"]], released.get(it["hold"]), shown.get(it["hold"]))
        if it["state"] == "live":
            compare(f"hold {it['hold']}: covers, by the deposits", len(covers.get(it["hold"], ())), it["covers"])
    return over, len(placed), len(released)


def hold_is(office, it, made, released, shown):
    """A hold is as it was made, released, and shown by a deposit, if one showed it."""
    number, (body, day) = it["hold"], made
    compare(f"hold {number}: released", released, it["released"])
    compare(f"hold {number}: its state", "released" if released else "live", it["state"])
    asked_so = {it["on"]: it["name"], "matter": it["matter"], "placed": it["placed"]}
    compare(f"hold {number}: what was asked", body | {"placed": day}, asked_so)
    if shown:
        compare(f"hold {number}", shown, {name: it[name] for name in ("hold", "matter", "on", "placed")})
    compare(f"hold {number}: covers", sum(one[it["on"]] == it["name"] for one in office.kept), it["covers"])


def placed_by(records, answers):
    """What the requests asked that placed a hold, with their days."""
    for record, (status, body) in zip(records, answers):
        if status == 201 and "hold" in body:
            yield json.loads(record.split(b"\r\n\r\n", 1)[1]), record[4:14].decode()


def destroyed_are(office):
    """Destroyed deposits are those whose record is refused. Gives their days by their numbers."""
    gone = [number for number, it in office.records.items() if it is None]
    days = {n: body["day"] for n, (_, body) in zip(gone, office.ask([get(f"/deposits/{n}") for n in gone]))}
    wanted = sorted((day, number) for number, day in days.items())
    compare("the destroyed deposits", wanted, [(it["destroyed"], it["deposit"]) for it in office.told["destroyed"]])
    return days


def accessions_are(office, days):
    """An accession is found with its record, or with the day on which its deposit was destroyed."""
    destroyed = {it["deposit"]: it for it in office.told["destroyed"]}
    for number in office.draw.sample(sorted(office.records), 5) + [*range(DEPOSITS + 1, DEPOSITS + 4), office.last]:
        it = office.records[number] or destroyed[number]
        found = asked(office.store, accession=it["accession"])["accession"]
        compare(f"an accession of deposit {number}", 1, len(found))
        if office.records[number]:
            compare(f"deposit {number}", {name: it[name] for name in SAME_OF_RECORD} | {"destroyed": None}, found[0])
        else:
            compare(f"deposit {number}", days[number], found[0]["destroyed"])
        target = deposit_target(it["accession"], it["collection"], it["class"], "2000-01-01")
        taken = office.ask([sessions.record(LAST, "POST", target, sessions.bag({1: 1}))])
        refusal = 409, {"deposit": found[0]["deposit"], "error": "Taken"}
        compare(f"the accession of deposit {number} again", [refusal], taken)
    compare("an unknown accession", [], asked(office.store, accession="2024-none")["accession"])


def due_are(office, over):
    """What comes due is so by the records, by the due list and by the lists of holds."""
    until = min(office.day + datetime.timedelta(days=office.within), END)
    (_, body), = office.ask([get("/due", day=until)])
    told = office.told["due"]
    free = [it for it in told if it["holds"] is None and may_dispose(office.told["rules"], it, str(until))]
    compare("the due list", body["deposits"], sorted(it["deposit"] for it in free))
    last = str(office.day + datetime.timedelta(days=office.within))
    wanted = sorted((it["due"], it["deposit"]) for it in office.kept if it["due"] != "permanent" and it["due"] <= last)
    compare("what comes due", wanted, [(it["due"], it["deposit"]) for it in told])
    for it in told:
        holds = [one["hold"] for one in over[it["deposit"]][1]["holds"]]
        compare(f"what holds deposit {it['deposit']}", " ".join(map(str, holds)) or None, it["holds"])
        compare(f"deposit {it['deposit']}", {name: it[name] for name in ("accession", "collection", "class", "due")},
                {name: office.records[it["deposit"]][name] for name in ("accession", "collection", "class", "due")})


def due_from_its_day(office):
    """A deposit comes due on its very day, and not on the day before."""
    one = office.draw.choice([it for it in office.kept if it["due"] != "permanent"])
    due = datetime.date.fromisoformat(one["due"])
    for within, is_there in [(3, True), (2, False)]:
        told = asked(office.store, day=due - datetime.timedelta(days=3), within=within)["due"]
        numbers = [it["deposit"] for it in told]
        compare(f"deposit {one['deposit']} until {within - 3} days after it is due",
                is_there, one["deposit"] in numbers)


def look(program, folder, seed, version):
    """Compares an office after a session with what `sqlite3` says of its copy. Gives how many of each there were."""
    office = Office(program, folder, seed, version)
    policy_is(office)
    names_are(office)
    over, placed, released = holds_are(office)
    days = destroyed_are(office)
    accessions_are(office, days)
    due_are(office, over)
    due_from_its_day(office)
    due = office.told["due"]
    return {f"offices of version {office.version}": 1, "deposits": office.last, "destroyed": len(days), "holds": placed,
            "live": placed - released, "due": len(due), "held": sum(it["holds"] is not None for it in due)}


def page_is(store, folder):
    """The commands of docs/OPERATING.md print each question's table."""
    (folder / "backup").mkdir()
    shutil.copyfile(store, folder / "backup/2024-03-02.db")
    (folder / "examples").symlink_to(TOP / "examples")
    commands = 'set -eu; . "$top/trials/pages.sh"; follow "Questions to a copy" 1'
    env = os.environ | {"top": str(TOP)}
    run = subprocess.run(["bash", "-c", commands], cwd=folder, env=env, capture_output=True, text=True, timeout=60)
    lines = [it for it in run.stdout.splitlines() if it.startswith("-- ")]
    compare("the page's commands", (0, len(NAMES), True), (run.returncode, len(lines), "archivist" in run.stdout))


def main():
    program = depot(sys.argv[1:])
    needs("sqlite3")
    total = {}
    with tempfile.TemporaryDirectory() as room:
        for seed in SEEDS:
            version = seed % VERSION
            counts = look(program, pathlib.Path(room), seed, version if version > 2 else VERSION)
            total = {name: total.get(name, 0) + counts.get(name, 0) for name in total | counts}
        with tempfile.TemporaryDirectory() as folder:
            page_is(pathlib.Path(room) / "office.db", pathlib.Path(folder))
    for name in total.keys() | {f"offices of version {it}" for it in range(3, VERSION + 1)}:
        if not total.get(name):
            fail(f"there are no {name}")
    print(f"asking: {compared()} cases: what sqlite3 says of copies of {len(SEEDS)} offices is what the offices say: "
          + ", ".join(f"{count} {name}" for name, count in total.items()))


if __name__ == "__main__":
    main()
