"""Part of serve.sh: what `depot serve` does with clients that cut their requests, send them byte by byte, go away,
reset, stop, stay or go on sending; and what an office has after it was killed. Fails at the first difference from
`docs/HTTP.md`.

Arguments: the program; a folder of its own; a policy of version 2 by which anna may do everything on the day below; and
how many times the office is killed.
"""

import collections
import functools
import json
import os
import random
import shutil
import socket
import struct
import subprocess
import sys
import time
import tomllib

from shared import requests
from shared.comparing import check, compare, fail
from shared.days import FIRST, LAST
from shared.forms import form_of
from shared.offices import PATIENCE, Server, make_office
from shared.requests import deposit_target, parts

PROGRAM, FOLDER, POLICY, KILLS = sys.argv[1], sys.argv[2], sys.argv[3], int(sys.argv[4])
DAY = "2024-03-01"
NOTHING_DUE = '{"day":"2024-03-01","deposits":[]}'

# What decides an answer before all has come, how many bytes are sent after it, and the answer.
EARLY = [
    (b"GET /due HTTP/1.1\r\nDepot-Caller: anna\r\n\r\n", 1 << 22, 200, NOTHING_DUE),
    (b"POST /deposits HTTP/1.1\r\nContent-Length: 16777217\r\n\r\n", 1 << 22, 413, '{"error":"TooLarge"}'),
    (b"GET HTTP/1.1\r\n\r\n", 1 << 22, 400, '{"error":"BadHead"}'),
    (b"POST /nowhere HTTP/1.1\r\nContent-Length: 8388608\r\n\r\n", 1 << 23, 404, '{"error":"NoRoute"}'),
]


# The rows that are counted in a copy of an office's file, and where they are.
COUNTED = {
    "classes": "class",
    "collections": "collection",
    "kept deposits": "deposit WHERE gone IS NULL",
    "destroyed deposits": "deposit WHERE gone IS NOT NULL",
    "files": "file",
    "contents": "content",
    "live holds": "hold_4 WHERE released IS NULL",
    "released holds": "hold_4 WHERE released IS NOT NULL",
    "holds on a class": "hold_4 WHERE class IS NOT NULL",
    "rules": "rule_5",
    "rules with days": f"rule_5 WHERE first > {FIRST} OR last < {LAST}",
    "callers": "caller",
}


class Office(Server):
    """An office that serves over a file, until it is killed."""

    peers = 0

    def __init__(self, store):
        super().__init__(PROGRAM, store, DAY, stderr=subprocess.DEVNULL)

    def connect(self, patience=120):
        Office.peers += 1
        peer = socket.create_connection(("127.0.0.1", self.port), timeout=patience)
        peer.setsockopt(socket.IPPROTO_TCP, socket.TCP_NODELAY, 1)
        return peer


# (each has the field of its length, so that this is cut, too)
request = functools.partial(requests.request, has_length=True)
target_of = functools.partial(deposit_target, class_="y0")


def heard_to_end(peer):
    """The status and the body of the answer that a peer gets, and how many seconds its end comes after its last
    byte."""
    got, last = b"", time.monotonic()
    while chunk := peer.recv(65536):
        got += chunk
        last = time.monotonic()
    waited = time.monotonic() - last
    status, fields, body = parts(got)
    lengths = [value for name, value in fields if name == "Content-Length"]
    is_whole = lengths == [str(len(body))] and ("Connection", "close") in fields
    check(is_whole, f"the length of the answer, and its end: {fields}")
    return (status, body), waited


def heard(peer):
    """The status and the body that a peer gets."""
    return heard_to_end(peer)[0]


def ask(office, method, target, body=b""):
    with office.connect() as peer:
        peer.sendall(request(method, target, body))
        return heard(peer)


def wants(what, found, status, body):
    """Ends where a request has another answer."""
    compare(what, (status, body.encode() if isinstance(body, str) else body), found)


def asks(office, method, target, status, body, sent=b""):
    """Sends a request, and ends where its answer is another."""
    wants(f"{method} {target}", ask(office, method, target, sent), status, body)


def opened(name):
    """A new office, with a class and a collection."""
    store = os.path.join(FOLDER, name)
    make_office(PROGRAM, store, POLICY)
    office = Office(store)
    asks(office, "PUT", "/classes/y0", 200, '{"class":"y0","years":0}', b'{"years":0}')
    asks(office, "PUT", "/collections/maps", 200, '{"collection":"maps"}')
    return office


def cut_and_dribbled():
    """Requests that end early, and requests of one byte at a time."""
    office = opened("cut.db")
    tried = 0
    whole = request("GET", "/deposits/7")
    form = request("POST", target_of("A-1"), form_of(b"abc"))
    for text in (whole, form):
        for end in range(0, len(text), 1 if text is whole else 17):
            with office.connect() as peer:
                peer.sendall(text[:end])
                peer.shutdown(socket.SHUT_WR)
                wants("a request that ends early", heard(peer), 400, '{"error":"Truncated"}')
                tried += 1
    rows = [
        (whole, 404, '{"error":"NoSuch","what":"deposit"}'),
        (form, 201, '{"deposit":1}'),
        (b"GET  HTTP\r\n\r\n", 400, '{"error":"BadHead"}'),
        (b"\r\n\r\n", 400, '{"error":"BadHead"}'),
        (request("GET", "/deposits/1/bag"), 200, form_of(b"abc")),
        (request("PUT", "/classes/y1", b'{"years":1}'), 200, '{"class":"y1","years":1}'),
        (request("PUT", "/classes/y1", b'{"years":1.0}'), 400, '{"error":"BadBody"}'),
    ]
    for text, status, body in rows:
        with office.connect() as peer:
            for byte in text:
                peer.sendall(bytes([byte]))
            wants(f"{text[:80]} byte by byte", heard(peer), status, body)
            tried += 1
    office.kill()
    print(f"cut or dribbled: {tried} requests answered as worked out")


def reset(peer):
    """Closes a connection by a RST, where `close` alone sends a FIN."""
    peer.setsockopt(socket.SOL_SOCKET, socket.SO_LINGER, struct.pack("ii", 1, 0))
    peer.close()


def going_away():
    """A hundred peers that go after a tenth of a second, a quarter by a reset, one that says nothing, and large
    bodies."""
    office = opened("away.db")
    due, deposit = request("GET", "/due"), request("POST", target_of("A-1"), form_of(b"abc"))
    begun = [b"", due[:20], due, deposit[:-3]]
    many_go(office, begun)
    began = time.monotonic()
    asks(office, "GET", "/due", 200, NOTHING_DUE)
    # Now the office is at each of them, in a read or after its answer.
    for text in begun:
        peer = office.connect()
        peer.sendall(text)
        time.sleep(0.1)
        reset(peer)
        asks(office, "GET", "/due", 200, NOTHING_DUE)
    check_time("a request after those that went", began, 0, 20)
    asks(office, "POST", target_of("A-1"), 422, '{"error":"BadBag","fault":"S1"}', b"x" * 16777216)
    for length in (16777217, 20000000):
        with office.connect() as peer:
            peer.sendall(request("POST", target_of("A-1"), b"")[:-5] + f"{length}\r\n\r\n".encode())
            peer.sendall(b"x" * 16700000)
            wants(f"a body of {length} bytes", heard(peer), 413, '{"error":"TooLarge"}')
    silent, slow = office.connect(), office.connect()
    slow.sendall(request("GET", "/due")[:-1])
    began = time.monotonic()
    asks(office, "GET", "/due", 200, NOTHING_DUE)
    check_time("a request after two that stopped", began, 55, 70)
    compare("what the two got that stopped", (b"", b""), (silent.recv(1), slow.recv(1)))
    office.kill()
    print("104 peers that went, 29 of them by a reset, 2 that stopped, bodies of 16 MiB and more: the next is served")


def many_go(office, begun):
    """A hundred peers at once send one of these texts each, and go."""
    peers = [office.connect() for _ in range(100)]
    for index, peer in enumerate(peers):
        peer.sendall(begun[index % 4])
    time.sleep(0.1)
    for index, peer in enumerate(peers):
        # One of four resets, and in turn one that sent each of the texts.
        if index % 4 == index // 4 % 4:
            reset(peer)
        else:
            peer.close()


def check_time(what, began, least, most):
    """What began at that moment took at least and less than these numbers of seconds."""
    waited = time.monotonic() - began
    check(least <= waited < most, f"{what} is to be answered after {least} to {most} seconds, and was after {waited}")


def at_one_address():
    """At 127.0.0.2, which is this machine too, nobody listens. An office that listened at all addresses would answer
    there."""
    office = opened("here.db")
    with socket.create_server(("0.0.0.0", 0)) as everywhere:
        socket.create_connection(("127.0.0.2", everywhere.getsockname()[1]), timeout=10).close()
    try:
        socket.create_connection(("127.0.0.2", office.port), timeout=10).close()
        fail("127.0.0.2 is to be refused, and the office took it")
    except ConnectionRefusedError:
        pass
    asks(office, "GET", "/due", 200, NOTHING_DUE)
    office.kill()
    print("a connection to 127.0.0.2 is refused")


def sending_on():
    """Peers that have their answer, and first send megabytes more: it is there before they do, and whole when they
    have."""
    office = opened("on.db")
    for text, more, status, body in EARLY:
        half = b"x" * (more // 2)
        with office.connect() as peer:
            peer.sendall(text + half)
            check(peer.recv(1, socket.MSG_PEEK), f"{text}: an answer is wanted before the rest is sent, and none came")
            peer.sendall(half)
            wants(f"{text} and more", heard(peer), status, body)
    office.kill()
    print(f"{len(EARLY)} answers that were decided early reached peers that went on for 4 or 8 MiB")


def staying():
    """Peers that have their answer and stay: each sees its end at once, and the next one waits a second for them."""
    office = opened("stays.db")
    for text, _, status, body in EARLY:
        for more in (0, 60000):
            with office.connect() as peer:
                peer.sendall(text + b"x" * more)
                found, waited = heard_to_end(peer)
                wants(f"{text} and {more} bytes", found, status, body)
                check(
                    waited < 0.5, f"{text}: the end is wanted within 0.5 seconds of the answer, and came after {waited}"
                )
                began = time.monotonic()
                asks(office, "GET", "/due", 200, NOTHING_DUE)
                check_time(f"the next one after {text}", began, 0, 2)
    office.kill()
    print(f"{2 * len(EARLY)} peers that stayed saw the end of their answers at once, and held the office for a second")


def never_reading():
    """Two peers ask for a bag of 16 MB: one resets in the answer, and one reads nothing and holds the office until a
    write has waited in vain."""
    office = opened("unread.db")
    form = form_of(b"x" * 16000000)
    asks(office, "POST", target_of("A-1"), 201, '{"deposit":1}', form)
    peer = office.connect()
    peer.sendall(request("GET", "/deposits/1/bag"))
    compare("the beginning of an answer", b"H", peer.recv(1))
    reset(peer)
    began = time.monotonic()
    asks(office, "GET", "/due", 200, '{"day":"2024-03-01","deposits":[1]}')
    check_time("a request after a reset in an answer", began, 0, 20)
    with socket.socket() as peer:
        peer.setsockopt(socket.SOL_SOCKET, socket.SO_RCVBUF, 4096)
        peer.connect(("127.0.0.1", office.port))
        Office.peers += 1
        peer.sendall(request("GET", "/deposits/1/bag"))
        began = time.monotonic()
        asks(office, "GET", "/due", 200, '{"day":"2024-03-01","deposits":[1]}')
        # (a write that waited may have handed on a part, and then the next one waits)
        check_time("a request after one that reads nothing", began, 25, 130)
        got = 0
        try:
            while chunk := peer.recv(65536):
                got += len(chunk)
        except ConnectionResetError:
            pass
        check(got < len(form), f"a peer that read nothing got {got} bytes after all")
    asks(office, "GET", "/deposits/1/bag", 200, form)
    office.kill()
    print(
        "a peer that resets in its answer, and one that reads nothing of it: its connection ends, and the next is "
        "served"
    )


# The classes of the deposits of an office that is killed.
CLASSES = ("y0", "y1")


class Kept:
    """What an office has to have: what was answered, and what may have been done."""

    def __init__(self):
        self.bags = {}
        # The class of each deposit.
        self.classes = {}
        self.gone = set()
        # What each hold names: a deposit, a class or the collection.
        self.holds = {}
        self.released = set()
        self.last = 0
        self.asked = 0

    def kept(self):
        return [number for number in self.bags if number not in self.gone]

    def live(self):
        return [hold for hold in self.holds if hold not in self.released]

    def covers(self, named, number):
        """Whether a hold that names this covers a deposit."""
        kind, name = named
        return kind == "collection" or name == (number if kind == "deposit" else self.classes[number])

    def over(self, number):
        """The live holds that cover a deposit."""
        return {hold for hold in self.live() if self.covers(self.holds[hold], number)}

    def next_request(self, chance, sizes):
        """A request, and what it does where it is served. The file of a bag has one of these sizes."""
        kept, live = self.kept(), self.live()
        free = [number for number in kept if not self.over(number)]
        # A hold on a class or on the collection, of which one is live at most.
        wide = [hold for hold in live if self.holds[hold][0] != "deposit"]
        pick = chance.random()
        if pick < 0.15 and kept:
            number = chance.choice(kept)
            named = ("deposit", number)
            if not wide and chance.random() < 0.4:
                of_class = "class", self.classes[number]
                named = chance.choice((of_class, of_class, ("collection", "maps")))
            body = json.dumps({named[0]: named[1], "matter": f"Case {len(self.holds)}"}).encode()
            return ("POST", "/holds", body), ("hold", len(self.holds) + 1, named)
        if pick < 0.25 and live:
            return ("DELETE", f"/holds/{(hold := chance.choice(wide or live))}", b""), ("release", hold, None)
        if pick < 0.40 and free:
            return ("DELETE", f"/deposits/{(number := chance.choice(free))}", b""), ("dispose", number, None)
        self.asked += 1
        form, name = form_of(chance.randbytes(chance.choice(sizes))), chance.choice(CLASSES)
        return ("POST", target_of(f"B-{self.asked}", class_=name), form), ("deposit", self.last + 1, (form, name))

    def done(self, change):
        kind, number, more = change
        if kind == "deposit":
            self.bags[number], self.classes[number] = more
            self.last = number
        elif kind == "hold":
            self.holds[number] = more
        elif kind == "release":
            self.released.add(number)
        else:
            self.gone.add(number)

    def counts(self):
        """How many rows there have to be, of all that `COUNTED` names."""
        with open(POLICY, "rb") as file:
            policy = tomllib.load(file)
        kept = self.kept()
        forms = {self.bags[number] for number in kept}
        return {
            "classes": len(CLASSES),
            # (what `opened` puts there)
            "collections": 1,
            "kept deposits": len(kept),
            "destroyed deposits": len(self.gone),
            # (each bag has three)
            "files": 3 * len(kept),
            # (and all bags have the first of them alike)
            "contents": 2 * len(forms) + (1 if forms else 0),
            "live holds": len(self.holds) - len(self.released),
            "released holds": len(self.released),
            "holds on a class": sum(1 for kind, _ in self.holds.values() if kind == "class"),
            "rules": len(policy["rule"]),
            "rules with days": sum(1 for rule in policy["rule"] if rule.keys() & {"first", "last"}),
            "callers": len(policy["callers"]),
        }


ANSWERS = {
    "deposit": (201, '{{"deposit":{0}}}'),
    "hold": (201, '{{"hold":{0}}}'),
    "release": (200, '{{"hold":{0},"released":"2024-03-01"}}'),
    "dispose": (200, '{{"day":"2024-03-01","destroyed":{0}}}'),
}


def holds_over(office, number):
    """The holds that the office lists of a deposit, each with what it names."""
    found = json.loads(ask(office, "GET", f"/deposits/{number}/holds")[1])["holds"]
    return {hold["hold"]: hold["on"] for hold in found}


def was_done(office, kept, change):
    """Whether the office did what was asked when it was killed."""
    kind, number, more = change
    if kind in ("hold", "release"):
        named = more if kind == "hold" else kept.holds[number]
        covered = next(it for it in kept.kept() if kept.covers(named, it))
        return (number in holds_over(office, covered)) == (kind == "hold")
    status, _ = ask(office, "GET", f"/deposits/{number}")
    return status == (200 if kind == "deposit" else 410)


def has_kept(office, kept, numbers):
    """The office has just what is kept; of these deposits the bags too."""
    listed = json.loads(ask(office, "GET", "/deposits")[1])["deposits"]
    found = [(record["deposit"], record["class"]) for record in listed]
    compare("the list of all deposits", [(number, kept.classes[number]) for number in sorted(kept.kept())], found)
    # (each was closed before the day, and its class keeps it for no years)
    due = ",".join(str(number) for number in sorted(kept.kept()) if not kept.over(number))
    asks(office, "GET", "/due", 200, f'{{"day":"2024-03-01","deposits":[{due}]}}')
    for number in kept.gone:
        asks(office, "GET", f"/deposits/{number}", 410, '{"day":"2024-03-01","error":"Gone"}')
    covered = {name for kind, name in kept.holds.values() if kind == "deposit"} | set(numbers) & set(kept.bags)
    for number in covered - kept.gone:
        live = {hold: kept.holds[hold][0] for hold in kept.over(number)}
        compare(f"the holds on deposit {number}", live, holds_over(office, number))
    for number in numbers:
        if number in kept.bags and number not in kept.gone:
            asks(office, "GET", f"/deposits/{number}/bag", 200, kept.bags[number])


def counted(store):
    """SQLite finds a copy of the file and its log whole. Gives how many rows it has, by the names of `COUNTED`."""
    folder = os.path.join(FOLDER, "copy")
    shutil.rmtree(folder, ignore_errors=True)
    os.mkdir(folder)
    for name in os.listdir(FOLDER):
        if name.startswith(os.path.basename(store)):
            shutil.copy(os.path.join(FOLDER, name), folder)
    copy = os.path.join(folder, os.path.basename(store))
    counts = ", ".join(f"(SELECT count(*) FROM {rows})" for rows in COUNTED.values())
    text = f"PRAGMA integrity_check; SELECT {counts};"
    said = subprocess.run(["sqlite3", "-batch", "-list", copy, text], capture_output=True, text=True, timeout=PATIENCE)
    lines = said.stdout.splitlines()
    check(lines[:1] == ["ok"] and len(lines) == 2, f"sqlite3 says of the file: {said}")
    return dict(zip(COUNTED, map(int, lines[1].split("|"))))


def many_asked(office, kept, chance):
    """Some requests, each with its answer. Gives how many."""
    count = chance.randrange(1, 5)
    for _ in range(count):
        (method, target, body), change = kept.next_request(chance, (3, 4000, 100000))
        status, text = ANSWERS[change[0]]
        asks(office, method, target, status, text.format(change[1]), body)
        kept.done(change)
    return count


def one_sent(office, kept, chance):
    """A request that is sent, or half of it, and isn't waited for. Gives the connection, what it does, and whether half
    was sent."""
    (method, target, body), change = kept.next_request(chance, (4000, 100000, 1000000))
    text = request(method, target, body)
    is_half = chance.randrange(3) == 0
    peer = office.connect()
    peer.sendall(text[: len(text) // 2] if is_half else text)
    # Some are killed at once, and some late: so some are done and some not, however fast the machine is.
    time.sleep(chance.random() * chance.choice((0, 0.006, 0.006, 0.05)))
    return peer, change, is_half


def what_became_of(office, kept, change, is_half):
    """Whether the request was done that the office was killed in: `done`, `not done` or `half`, which isn't done."""
    is_done = was_done(office, kept, change)
    if is_half:
        check(not is_done, f"half of a request was sent, and it was done: {change[:2]}")
        return "half"
    if is_done:
        kept.done(change)
    return "done" if is_done else "not done"


def killed():
    """Kills the office between requests and in them, and looks what is there after each restart."""
    chance, kept = random.Random(1), Kept()
    store = os.path.join(FOLDER, "killed.db")
    office = opened("killed.db")
    for name in CLASSES:
        asks(office, "PUT", f"/classes/{name}", 200, f'{{"class":"{name}","years":0}}', b'{"years":0}')
    counts = collections.Counter()
    for turn in range(KILLS):
        counts["answered"] += many_asked(office, kept, chance)
        pending = one_sent(office, kept, chance) if turn % 2 else None
        office.kill()
        found = counted(store)
        office = Office(store)
        if pending:
            peer, change, is_half = pending
            peer.close()
            counts[what_became_of(office, kept, change, is_half)] += 1
        # What was there when it was killed is what was answered, and what the request that it was killed in did.
        compare("the rows after a kill", kept.counts(), found)
        some = chance.sample(sorted(kept.bags), min(3, len(kept.bags)))
        has_kept(office, kept, {*list(kept.bags)[-5:], *some})
    has_kept(office, kept, kept.bags)
    office.kill()
    found = counted(store)
    compare("the rows in the end", kept.counts(), found)
    done, not_done = counts["done"], counts["not done"]
    if KILLS >= 100:
        check(done and not_done, f"some done and some not are wanted, and {done} were done and {not_done} not")
    print(
        f"killed {KILLS} times: {counts['answered']} answers were kept, and of the requests that it was killed in "
        f"{done} were done and {not_done} not, and none of {counts['half']} that were sent by half; each time sqlite3 "
        f"counted just the rows of these, and at last {', '.join(f'{count} {rows}' for rows, count in found.items())}"
    )


def main():
    cut_and_dribbled()
    at_one_address()
    sending_on()
    staying()
    going_away()
    never_reading()
    killed()
    print(
        f"serve_client: {Office.peers} connections, with cut and dribbled requests, another address, answers before "
        f"all has come, peers that go, reset, stay, stop or don't read, and {KILLS} kills: as docs/HTTP.md says"
    )


if __name__ == "__main__":
    main()
