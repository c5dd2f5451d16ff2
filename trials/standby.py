"""Part of standby.sh: a load on an office, and what a copy of it has.

- `load HOST:PORT FOLDER MOST`: four clients ask the office without a pause until it is gone. Each has a collection and
  a class of its own, deposits bags of at most MOST bytes, places and releases holds, revises its class and destroys.
  Files in FOLDER have what was sent, what was answered, and each bag; `answered` has a line for each answer.
- `check HOST:PORT FOLDER KNOWN`: this office has what the first KNOWN lines of `answered` name. More exactly: for each
  client it has what that client's requests had done after one of them, which isn't before the last of those. Each bag
  is returned byte for byte, and the office goes on with the next number.
- `lacks FILE FOLDER KNOWN`: FILE has the answer to a list of all deposits. The list has each deposit that the first
  KNOWN lines of `answered` name, unless its destruction was asked for.

The last two end with 1 where that isn't so.
"""
import functools
import http.client
import json
import os
import random
import sys
import threading

from shared import offices
from shared.comparing import fail
from shared.forms import form_of
from shared.requests import deposit_target

CLIENTS = 4
CLOSED, DUE = "2024-02-29", ["2024-02-29", "2025-02-28", "2026-02-28", "2027-02-28"]
mode, office, folder, most = *sys.argv[1:4], int(sys.argv[4])
ask = functools.partial(offices.ask, office)


def bag(most):
    """The transfer form of a bag with one payload file, of random bytes."""
    return form_of(os.urandom(random.randrange(1, most)))


def lines_of(name):
    """The lines of a file of the folder, none where it isn't there."""
    path = f"{folder}/{name}"
    if not os.path.exists(path):
        return []
    with open(path) as file:
        return file.read().splitlines()


def logged(which, word):
    """What a client noted with this word, `sent` or `done`. (A line may be cut short where the client was ended.)"""
    entries = [json.loads(line) for line in lines_of(f"client-{which}") if line.endswith("]")]
    return [entry[1:] for entry in entries if entry[0] == word]


class State:
    """What a client's requests have done: its kept deposits and live holds with their numbers, what is gone, its
    class's years."""

    def __init__(self):
        self.kept, self.gone, self.holds, self.years = {}, {}, {}, None

    def covering(self, accession):
        held = accession, "class", "collection"
        return {matter: number for matter, (number, on) in self.holds.items() if on in held}

    def allows(self, kind, name):
        """Whether the office accepts it; all is accepted but the disposal of what is held or not due."""
        return kind != "dispose" or (self.years == 0 and not self.covering(name))

    def apply(self, kind, name, more, number):
        if kind == "class":
            self.years = more
        elif kind == "deposit":
            self.kept[name] = number
        elif kind == "hold":
            self.holds[name] = (number, more)
        elif kind == "release":
            del self.holds[name]
        elif kind == "dispose":
            self.gone[name] = self.kept.pop(name)


# ---- the load


def drawn(state, which, at):
    """What a client asks next: the kind, a name, and what else belongs to it."""
    kind = random.choice(["deposit"] * 6 + ["hold"] * 2 + ["release", "class", "dispose", "dispose"])
    name, more = f"{which}-{at}", None
    if at == 0:
        kind = "collection"
    elif at == 1 or kind == "class":
        kind, more = "class", random.choice([0, 0, 1, 2, 3])
    elif kind == "hold":
        more = random.choice([*state.kept, *state.kept, "class", "collection"][-8:])
    elif kind == "release" and state.holds:
        name = random.choice([*state.holds])
    elif kind == "dispose" and state.kept:
        name = random.choice([*state.kept])
    else:
        kind = "deposit"
    return kind, name, more


def request_for(state, which, kind, name, more):
    """The method, the target and the body of that. A bag is written into the folder."""
    if kind == "collection":
        return "PUT", f"/collections/c{which}"
    if kind == "class":
        return "PUT", f"/classes/k{which}", b'{"years":%d}' % more
    if kind == "deposit":
        form = bag(most)
        with open(f"{folder}/bag-{name}", "wb") as file:
            file.write(form)
        return "POST", deposit_target(name, f"c{which}", f"k{which}", CLOSED), form
    if kind == "hold":
        on = {"class": f"k{which}", "collection": f"c{which}"}.get(more)
        what = {more: on} if on else {"deposit": state.kept[more]}
        return "POST", "/holds", json.dumps({**what, "matter": name}).encode()
    if kind == "release":
        return "DELETE", f"/holds/{state.holds[name][0]}"
    return "DELETE", f"/deposits/{state.kept[name]}"


def client(which):
    """Asks without a pause. A request is noted before it is sent, and once it is answered."""
    state, at = State(), 0
    log = os.open(f"{folder}/client-{which}", os.O_WRONLY | os.O_CREAT | os.O_APPEND)
    answered = os.open(f"{folder}/answered", os.O_WRONLY | os.O_CREAT | os.O_APPEND)
    while True:
        kind, name, more = drawn(state, which, at)
        request = request_for(state, which, kind, name, more)
        os.write(log, json.dumps(["sent", kind, name, more]).encode() + b"\n")
        status, answer = ask(*request)
        said = json.loads(answer)
        accepted = state.allows(kind, name)
        if (status in (200, 201)) != accepted:
            print(f"client {which}: {kind} {name} is answered {status} {said}", file=sys.stderr, flush=True)
            os._exit(1)
        number = said.get("deposit" if kind == "deposit" else "hold")
        if accepted:
            state.apply(kind, name, more, number)
        os.write(log, json.dumps(["done", accepted, number]).encode() + b"\n")
        os.write(answered, b"%d %d\n" % (which, at))
        at += 1


def load():
    def run(which):
        try:
            client(which)
        except (OSError, http.client.HTTPException, ValueError):
            pass  # the office is gone

    threads = [threading.Thread(target=run, args=(which,)) for which in range(CLIENTS)]
    for thread in threads:
        thread.start()


# ---- what a copy has


class Found:
    """What the office has of a client: the records by their accessions, and the live holds over each."""

    def __init__(self, which):
        records = json.loads(ask("GET", f"/deposits?collection=c{which}")[1])["deposits"]
        self.records = {record["accession"]: record for record in records}
        self.held = {}
        for name, record in self.records.items():
            holds = json.loads(ask("GET", f"/deposits/{record['deposit']}/holds")[1])["holds"]
            self.held[name] = {hold["matter"]: hold["hold"] for hold in holds}
            with open(f"{folder}/bag-{name}", "rb") as file:
                if ask("GET", f"/deposits/{record['deposit']}/bag") != (200, file.read()):
                    fail(f"{name} has other bytes")

    @functools.cache
    def status(self, number):
        return ask("GET", f"/deposits/{number}")[0]

    def fits(self, state):
        """Whether the office has what the client's requests have done in this state."""
        found, held = self.records, self.held
        return (
            state.kept.keys() == found.keys()
            and all(
                number in (None, found[name]["deposit"]) and found[name]["due"] == DUE[state.years]
                for name, number in state.kept.items()
            )
            and all(state.covering(name).keys() == held[name].keys() for name in found)
            and all(
                number in (None, held[name][matter])
                for name in found
                for matter, number in state.covering(name).items()
            )
            and all(self.status(number) == 410 for number in state.gone.values())
        )


def fitting(which, least):
    """The first state of a client that the office has, after at least this number of its requests; nothing where there
    is none."""
    found, state, at = Found(which), State(), 0
    sent, done = logged(which, "sent"), logged(which, "done")
    while at < least or not found.fits(state):
        if at == len(sent):
            return None
        kind, name, more = sent[at]
        accepted, number = done[at] if at < len(done) else (state.allows(kind, name), None)
        if accepted:
            state.apply(kind, name, more, number)
        at += 1
    return state


def check(known):
    lines = lines_of("answered")[:known]
    kept_in_all = gone_in_all = 0
    for which in range(CLIENTS):
        least = sum(line.split()[0] == str(which) for line in lines)
        state = fitting(which, least)
        if state is None:
            fail(f"client {which}: {least} changes were answered before, {len(logged(which, 'sent'))} sent in all, "
                 "and what is there fits none of the states since")
        kept_in_all += len(state.kept)
        gone_in_all += len(state.gone)
    ask("PUT", "/collections/c0")
    ask("PUT", "/classes/k0", b'{"years":1}')
    form, number = bag(1000), kept_in_all + gone_in_all + 1
    answer = ask("POST", deposit_target("after", "c0", "k0", CLOSED), form)
    if answer != (201, b'{"deposit":%d}' % number) or ask("GET", f"/deposits/{number}/bag")[1] != form:
        fail(f"the next deposit, of {kept_in_all} kept and {gone_in_all} gone, is answered {answer}")


def lacks(known):
    with open(office) as file:
        found = file.read()
    for line in lines_of("answered")[:known]:
        which, at = map(int, line.split())
        sent = logged(which, "sent")
        kind, name, _ = sent[at]
        if kind == "deposit" and f'"accession":"{name}"' not in found and ["dispose", name, None] not in sent:
            fail(f"{name} is missing")


if mode == "load":
    load()
elif mode == "check":
    check(most)
else:
    lacks(most)
