#!/usr/bin/env python3
"""Shows what docs/OPERATING.md says under "Limits" of the N of `depot serve --count N`.

One client asks without a pause for a record, for what is due, and to deposit a bag of 10 KiB. The script prints how
many connections an office takes in a second, and so how long a million of them last. That may not be less than two
thirds of what the page says.

Then five connections show that each counts: also one that is refused, one that sends nothing and one that is lost.
After the last the office ends with status 0.

Argument: the program; by default that of the variable DEPOT, or the built one.
"""

import hashlib
import os
import socket
import sys
import tempfile
import time

from shared.comparing import fail
from shared.forms import form_of
from shared.offices import Server, answer_to, make_office
from shared.places import TOP, depot
from shared.requests import deposit_target, request

DAY = "2024-03-02"
SECONDS = 5
MOST = 1_000_000
# What docs/OPERATING.md says under "Limits" of how long a million connections last, in its words, and in minutes.
ASKED = "a minute if one client asks for records or due lists without a pause", 1
DEPOSITED = "a quarter of an hour if each deposits 10 KiB and the disk is fast", 15


def asks(server, sent, wanted):
    """Sends a request by a connection of its own, and reads its answer, which has this status."""
    answer = answer_to(server.port, sent, 60)
    if not answer.startswith(f"HTTP/1.1 {wanted} ".encode()):
        fail(f"{sent[:80]!r} is answered {answer[:200]!r}")


def deposit(number):
    """A request that deposits a bag of 10 KiB that no other is like."""
    content = hashlib.sha256(b"%d" % number).hexdigest().encode() * 160
    return request("POST", deposit_target(f"A-{number}"), form_of(content))


def rate(server, make, wanted):
    """How many connections are answered in a second."""
    count, began = 0, time.monotonic()
    while time.monotonic() < began + SECONDS:
        count += 1
        asks(server, make(count), wanted)
    return count / (time.monotonic() - began)


def lasts(per_second):
    """How long a million connections last at this rate."""
    minutes = MOST / per_second / 60
    return f"{minutes:.0f} minutes" if minutes < 100 else f"{minutes / 60:.1f} hours"


def rates(server):
    """Measures each kind of connection. Fails where a million are over too soon."""
    asks(server, request("PUT", "/classes/y1", b'{"years":1}'), 200)
    asks(server, request("PUT", "/collections/maps"), 200)
    asks(server, deposit(0), 201)
    short = []
    for name, make, wanted, (text, minutes) in [
        ("a record", lambda _: request("GET", "/deposits/1"), 200, ASKED),
        ("what is due", lambda _: request("GET", "/due"), 200, ASKED),
        ("a deposit of 10 KiB", deposit, 201, DEPOSITED),
    ]:
        found = rate(server, make, wanted)
        print(f"rates: {name}: {found:.0f} connections in a second; a million last {lasts(found)}")
        if MOST / found / 60 < minutes * 2 / 3:
            short.append(f"{name} in less than two thirds of what docs/OPERATING.md says: {text}")
    if short:
        fail("; ".join(short))


def five(server):
    """Five connections: of a request, one that is refused, one that sends nothing, one that is lost, and one more."""
    asks(server, request("GET", "/due"), 200)
    asks(server, request("GET", "/nowhere"), 404)
    socket.create_connection(("127.0.0.1", server.port)).close()
    with socket.create_connection(("127.0.0.1", server.port)) as peer:
        peer.sendall(b"GET /du")
    if server.process.poll() is not None:
        fail("the office ended before its last connection")
    asks(server, request("GET", "/due"), 200)
    if server.ended() != 0:
        fail(f"after its last connection the office ended with {server.process.returncode}")
    print("rates: five connections of five kinds were counted, and the office ended with status 0")


def main():
    page = " ".join((TOP / "docs/OPERATING.md").read_text().split())
    for text, _ in (ASKED, DEPOSITED):
        if text not in page:
            fail(f"docs/OPERATING.md doesn't say: {text}")
    program = depot(sys.argv[1:])
    with tempfile.TemporaryDirectory() as folder:
        store = os.path.join(folder, "office.db")
        make_office(program, store)
        server = Server(program, store, DAY, MOST)
        rates(server)
        server.kill()
        five(Server(program, store, DAY, 5))


if __name__ == "__main__":
    main()
