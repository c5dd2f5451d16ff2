#!/usr/bin/env python3
"""Makes stores of the older versions through Python's sqlite3, with 2,000 deposits, 200 rules, and 1,000 holds of each
kind that the version has, live and released. Their rows are those of a history of changes that an office accepts.

Each command of the program that opens a store is given a copy, and answers as the history says. Then the rows are
compared with those before, one by one: all of them are there, holds and rules in the newest tables. The schema is that
of a store that the program makes. A second run of the command on the same store changes nothing more. A replay of
changes continues the history, and leaves its rows. `kept.py` finds no fault in the store before, nor in what a command
left.

Then the program is killed while it upgrades. What is left has all rows before or all rows after, and the next command
upgrades it.

Arguments: the program, by default that of the variable DEPOT, or the built one; and how many times it is killed, by
default 50.
"""

import json
import operator
import os
import random
import shutil
import sqlite3
import subprocess
import sys
import tempfile
import time

import kept
from shared import offices
from shared.comparing import fail, shown
from shared.days import date
from shared.forms import form
from shared.histories import NAMED, answer, rules_of
from shared.offices import Server, answer_to
from shared.places import depot
from shared.policies import allow, deny, policy
from shared.requests import answer_record, deposit_target, record, request
from shared.stores import BAG, NEWEST, VERSION, differs, look, make, newest_of, rows, upgraded

DAY, TODAY = "2024-03-01", 19783
DEPOSITS, HOLDS, RULES = 2000, 1000, 200


def faults(copy):
    """What `kept.py` finds in a store of any version. Views give older tables the names of the newest."""
    connection = sqlite3.connect(copy)
    version, = connection.execute("SELECT version FROM office").fetchone()
    has = newest_of(text for text, in connection.execute("SELECT sql FROM sqlite_schema WHERE type = 'table'"))
    for name in ("deposit", "hold"):
        if has[name] != NEWEST[name]:
            columns = "*, NULL AS class" if has[name] == "hold" else "*"
            connection.execute(f"CREATE TEMP VIEW {NEWEST[name]} AS SELECT {columns} FROM {has[name]}")
    looks = kept.faults_of_contents, kept.faults_of_files, kept.faults_of_deposits
    found = [fault for faults_of in looks for fault in faults_of(connection)]
    connection.close()
    return found + (kept.look(copy)[0] if version == VERSION else [])


def keeps(path, what):
    """Fails where `kept.py` finds a fault."""
    found = look(path, faults)
    if found:
        fail(f"{what}: {found[:5]}")


# ---- requests


def reads(office):
    """Requests that change nothing, with the answers that the history gives: of each deposit its record, its holds, its
    audit and its file; lists for the archivist and for the clerk, whom the rules tell few; and what is due."""
    for it in office.deposits:
        n = it["deposit"]
        yield request("GET", f"/deposits/{n}"), office.ask(n, office.told)
        yield request("GET", f"/deposits/{n}/holds"), office.ask(n, office.told_holds)
    for n in range(1, len(office.deposits), 29):
        report = {"bytes": 3, "deposit": n, "files": 1, "manifests": 1, "valid": True, "version": "1.0"}
        yield request("GET", f"/deposits/{n}/audit"), office.ask(n, lambda _: report)
        yield request("GET", f"/deposits/{n}/files/data/a"), office.ask(n, lambda _: "abc")
    yield request("GET", "/deposits"), office.listed(lambda _: True)
    filing, some = operator.itemgetter("collection", "class"), ("c3", "y5")
    yield request("GET", "/deposits?collection={}&class={}".format(*some)), office.listed(lambda it: filing(it) == some)
    allowed = {tuple(patterns) for _, effect, role, _, *patterns in rules_of(RULES) if role == "clerk" and effect}
    yield request("GET", "/deposits", caller="carl"), office.listed(lambda it: filing(it) in allowed)
    yield request("GET", "/due", caller="carl"), answer("200 OK", {"day": DAY, "deposits": []})
    yield request("GET", "/due"), office.due(TODAY)


def changes(office):
    """Requests that go on with the history, accepted and refused ones: holds of each kind, deposits that they cover,
    releases, and the disposal of every deposit."""
    named = [(n, None, None) for n in (5, 44, 1011)] + [(None, f"c{n}", None) for n in (5, 6)]
    for target in named + [(None, None, f"y{n}") for n in (5, 6)]:
        name, value = next(it for it in zip(NAMED, target) if it[1])
        body = json.dumps({name: value, "matter": "Case 2024"}).encode()
        yield request("POST", "/holds", body), office.hold(TODAY, target, "Case 2024")
    for n in range(20):
        collection, class_, accession = f"c{n}", f"y{n % 10}", f"B-{n}"
        target = deposit_target(accession, collection, class_, date(18321))
        yield request("POST", target, form(BAG)), office.deposit(TODAY, collection, class_, accession, 18321)
    for number in range(1, len(office.holds) + 1, 5):
        yield request("DELETE", f"/holds/{number}"), office.release(TODAY, number)
    for it in office.deposits:
        yield request("DELETE", f"/deposits/{it['deposit']}"), office.dispose(TODAY, it["deposit"])
    yield request("GET", "/due"), office.due(TODAY)


# ---- the commands


def ask(program, store):
    given = subprocess.run([program, "ask", store, DAY], input=request("GET", "/due"), capture_output=True, timeout=120)
    return given.returncode, given.stdout


def replay(program, store, requests, *options):
    given = offices.replay(program, store, [record(DAY, it) for it in requests], *options)
    return given.returncode, given.stdout


def answered(answers):
    """The records of these answers."""
    return b"".join(map(answer_record, answers))


def serve(program, store):
    server = Server(program, store, DAY, 1)
    said = answer_to(server.port, request("GET", "/due"))
    return server.ended(), said


def written(store, **days):
    """The path of a policy with the rules that were copied, those of clerks with these days."""
    path, rules = store + ".toml", []
    for _, effect, role, *patterns in rules_of(RULES):
        rules.append((allow if effect else deny)(role, *patterns, **(days if role == "clerk" else {})))
    with open(path, "w", encoding="ascii") as file:
        file.write(policy({"anna": "archivist", "carl": "clerk"}, *rules))
    return path


def install(program, store, **days):
    """The policy of a file in the place of the one that was copied."""
    given = subprocess.run([program, "policy", store, written(store, **days)], capture_output=True, timeout=120)
    return given.returncode, given.stdout


def install_with_days(program, store):
    return install(program, store, first="2024-01-01", last="2024-12-31")


def instead(found, said):
    return " in the place of ".join(shown(found, said))


def commands(program, folder, version, first, office):
    """Gives each command a copy of the store."""
    before = rows(first)[1]
    wanted = upgraded(version, before)
    fresh = os.path.join(folder, "fresh.db")
    if not os.path.exists(fresh):
        install(program, fresh)
    dated = {**wanted, "rule_5": [(*it[:-2], 19723, 20088) if it[3] == "clerk" else it for it in wanted["rule_5"]]}
    asked = list(reads(office))
    requests, answers = [it[0] for it in asked], answered(it[1] for it in asked)
    installed = b"installed %d rules 2 callers\n" % RULES
    for name, command, said, left in (
        ("ask", ask, office.due(TODAY), wanted),
        ("replay", lambda *words: replay(*words, requests), answers, wanted),
        ("replay --policy", lambda *words: replay(*words, requests, "--policy", written(words[1])), answers, wanted),
        ("serve", serve, office.due(TODAY), wanted),
        ("policy", install, installed, wanted),
        ("policy with days", install_with_days, installed, dated),
    ):
        store = os.path.join(folder, f"{name}-{version}.db")
        shutil.copyfile(first, store)
        for _ in range(2):
            status, found = command(program, store)
            if status != 0 or found != said:
                fail(f"{name} of version {version} ends with {status}, and answers {instead(found, said)}")
            schema, found = rows(store)
            if schema != rows(fresh)[0]:
                fail(f"the schema of version {version} after {name} isn't that of a new store")
            other = differs(found, left)
            if other:
                fail(f"{name} of version {version}: {other}")
        keeps(store, f"{name} of version {version}")
    go_on(program, folder, version, first, office)
    return len(asked)


def go_on(program, folder, version, first, office):
    """Goes on with the history, over another copy: its rows are there then, and no file but of what is kept."""
    store = os.path.join(folder, f"changed-{version}.db")
    shutil.copyfile(first, store)
    asked = list(changes(office))
    status, found = replay(program, store, [it[0] for it in asked])
    said = answered(it[1] for it in asked)
    if status != 0 or found != said:
        fail(f"changes of version {version} end with {status}, and are answered {instead(found, said)}")
    tables = rows(store)[1]
    found = {name: [it[1:] for it in tables[NEWEST[name]]] for name in ("deposit", "hold", "file")}
    files = [(it["deposit"], name, n) for it in office.deposits if it["gone"] is None for n, name in enumerate(BAG, 1)]
    other = differs(found, {"deposit": office.rows_of_deposits(), "hold": office.rows_of_holds(), "file": files})
    if other:
        fail(f"changes of version {version}: {other}")
    keeps(store, f"changes of version {version}")


def kills(program, folder, version, first, said, times):
    """Kills the program while it upgrades, so late that about half of the kills come after its commit."""
    before = rows(first)
    wanted = rows(os.path.join(folder, "fresh.db"))[0], upgraded(version, before[1])
    store = os.path.join(folder, "killed.db")
    shutil.copyfile(first, store)
    began = time.monotonic()
    ask(program, store)
    most = time.monotonic() - began
    draw = random.Random(version)
    old = new = 0
    for _ in range(times):
        for end in ("", "-wal"):
            if os.path.exists(store + end):
                os.remove(store + end)
        shutil.copyfile(first, store)
        words = [program, "ask", store, DAY]
        with subprocess.Popen(words, stdin=subprocess.DEVNULL, stdout=subprocess.DEVNULL) as running:
            time.sleep(draw.uniform(0, most))
            running.kill()
        found = rows(store)
        if found == before:
            old += 1
            most *= 1.1
        elif found == wanted:
            new += 1
            most /= 1.1
        else:
            fail(f"a kill left neither the rows of version {version} nor those after: {differs(found[1], wanted[1])}")
        if ask(program, store) != (0, said) or rows(store) != wanted:
            fail(f"what a kill left of version {version} isn't upgraded: {differs(rows(store)[1], wanted[1])}")
    if times >= 50 and not (old and new):
        came = f"of version {version} {old} came before and {new} after"
        fail(f"kills before and after the commit are wanted, and {came}")
    return old, new


def try_version(program, folder, version, times):
    """Gives each command a store of this version, and kills the program this number of times while it upgrades one."""
    first = os.path.join(folder, f"first-{version}.db")
    office = make(first, version, DEPOSITS, HOLDS, RULES)
    keeps(first, f"the store of version {version}")
    gone = sum(it["gone"] is not None for it in office.deposits)
    due = sum(office.is_due(TODAY, it) for it in office.deposits)
    covered = sum(it["gone"] is not None and bool(office.covering(it)) for it in office.deposits)
    if min(gone, due, covered) < 20:
        fail(f"few deposits are destroyed, due or held since: {gone}, {due}, {covered}")
    said = office.due(TODAY)
    asked = commands(program, folder, version, first, office)
    old, new = kills(program, folder, version, first, said, times)
    deposits = f"{gone} deposits destroyed, of which {covered} are held since, {due} due"
    print(f"version {version}: {asked} answers, {deposits}")
    kinds = f"{old} left the rows of that version and {new} those after"
    print(f"version {version}: 6 commands, {old + new} kills, of which {kinds}")


def main():
    words = sys.argv[1:]
    program = depot(words)
    times = int(words[1]) if len(words) > 1 else 50
    with tempfile.TemporaryDirectory() as folder:
        for version in range(3, VERSION):
            try_version(program, folder, version, times)


if __name__ == "__main__":
    main()
