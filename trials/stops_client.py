#!/usr/bin/env python3
"""Part of stops.sh: eight clients of an office, through its proxy: stops_client.py PORT PREFIX ANSWERS END PAUSE
[SECONDS USER].

Each client is a user of its own, u1 to u8, and asks until the file END exists, with PAUSE seconds between two requests.
Three deposit bags, one deposits larger ones, two ask for records and lists, and two upload slowly: a bag takes one to
two seconds. Each deposit has an accession of its own, which begins with PREFIX, and its payload is made from that.

ANSWERS gets a line for each request, once it is answered: the moments at which it began and ended, the kind, the
accession or target, the status (0 without an answer), Retry-After or `-`, and the first 200 bytes of the body. A client
that is refused asks again after 0.2 seconds, whatever Retry-After says. With SECONDS there is one upload of USER alone,
which takes that long.
"""
import base64
import http.client
import itertools
import os
import random
import socket
import ssl
import sys
import threading
import time

from shared.forms import form_of
from shared.requests import deposit_target

CONTEXT = ssl.create_default_context(cafile="office.crt")
# In how many pieces a slow upload is sent.
PIECES = 20


def bag(accession):
    """The transfer form of the bag of this accession: some hundred bytes, or many."""
    length = 20_000 if "-large" in accession else 4_000 if "-slow" in accession else 300
    return form_of(random.Random(accession).randbytes(length))


def is_whole(answer):
    """Whether this is an answer with all of its body."""
    head, end, body = answer.partition(b"\r\n\r\n")
    length = [line.split(b":")[1] for line in head.split(b"\r\n") if line.lower().startswith(b"content-length:")]
    return bool(end and length) and len(body) >= int(length[0])


class Client:
    """One user, with a connection that stays as long as the proxy keeps it."""

    def __init__(self, user):
        self.field = "Basic " + base64.b64encode(f"{user}:secret".encode()).decode()
        self.connection = None

    def ask(self, kind, name, method, target, body=None):
        began = time.time()
        try:
            if self.connection is None:
                self.connection = http.client.HTTPSConnection("localhost", PORT, timeout=60, context=CONTEXT)
            self.connection.request(method, target, body, {"Authorization": self.field})
            answer = self.connection.getresponse()
            record(began, kind, name, answer.status, answer.getheader("Retry-After"), answer.read())
            return answer.status
        except (OSError, http.client.HTTPException) as problem:
            self.connection = None
            record(began, kind, name, 0, None, repr(problem).encode())
            return 0

    def ask_slowly(self, name, target, body, seconds):
        """Sends the body in pieces over this number of seconds, and stops where the answer comes before."""
        began = time.time()
        answer = bytearray()
        try:
            plain = socket.create_connection(("localhost", PORT), 60)
            with CONTEXT.wrap_socket(plain, server_hostname="localhost") as peer:
                peer.sendall(
                    f"POST {target} HTTP/1.1\r\nHost: localhost\r\nAuthorization: {self.field}\r\n"
                    f"Content-Length: {len(body)}\r\nConnection: close\r\n\r\n".encode()
                )
                upload(peer, body, seconds, answer)
        except OSError as problem:
            if not answer:
                record(began, "slow", name, 0, None, repr(problem).encode())
                return 0
        head, _, body = bytes(answer).partition(b"\r\n\r\n")
        lines = head.decode("latin-1").split("\r\n")
        again = [line.split(": ")[1] for line in lines if line.lower().startswith("retry-after: ")]
        try:
            status = int(lines[0].split(" ")[1])
        except (IndexError, ValueError):
            status = 0
        record(began, "slow", name, status, again[0] if again else None, body)
        return status


def upload(peer, body, seconds, answer):
    """Sends a body in pieces until an answer comes, which is added to `answer`."""
    size = -(-len(body) // PIECES)
    for at in range(PIECES):
        time.sleep(seconds / PIECES)
        peer.setblocking(False)
        try:
            answer += peer.recv(65536)
        except (ssl.SSLWantReadError, ssl.SSLWantWriteError):
            pass
        peer.settimeout(60)
        if answer:
            break
        peer.sendall(body[at * size : (at + 1) * size])
    # (the whole answer, and no more: nginx waits for the rest of a body that it refused)
    while not is_whole(answer) and (part := peer.recv(65536)):
        answer += part


def record(began, kind, name, status, again, body):
    said = body[:200].decode("latin-1").replace("\n", " ").replace("\t", " ")
    with LOCK:
        cells = f"{began:.3f}", f"{time.time():.3f}", kind, name, status, again or "-", said
        print(*cells, sep="\t", file=ANSWERS, flush=True)


def goes_on():
    return not os.path.exists(END)


def deposits(user, kind):
    client = Client(user)
    for number in itertools.count(1):
        name = f"{PREFIX}-{kind}-{user}-{number}"
        if not goes_on():
            return
        status = client.ask(kind, name, "POST", deposit_target(name), bag(name))
        time.sleep(PAUSE if status == 201 else 0.2)


def reads(user):
    client = Client(user)
    targets = itertools.cycle(["/due", "/deposits/1", "/deposits/2/bag", "/deposits/1/holds", "/deposits?class=y0"])
    while goes_on():
        target = next(targets)
        time.sleep(PAUSE if client.ask("read", target, "GET", target) == 200 else 0.2)


def uploads(user):
    client = Client(user)
    wait = random.Random(user)
    for number in itertools.count(1):
        name = f"{PREFIX}-slow-{user}-{number}"
        if not goes_on():
            return
        if client.ask_slowly(name, deposit_target(name), bag(name), wait.uniform(1, 2)) != 201:
            time.sleep(0.2)


if __name__ == "__main__":
    PORT, PREFIX, END, PAUSE = int(sys.argv[1]), sys.argv[2], sys.argv[4], float(sys.argv[5])
    ANSWERS = open(sys.argv[3], "w")
    LOCK = threading.Lock()
    if len(sys.argv) > 6:
        NAME = f"{PREFIX}-slow"
        Client(sys.argv[7]).ask_slowly(NAME, deposit_target(NAME), bag(NAME), float(sys.argv[6]))
        sys.exit()
    jobs = [(deposits, f"u{n}", "small") for n in (1, 2, 3)] + [(deposits, "u4", "large")]
    jobs += [(reads, "u5"), (reads, "u6"), (uploads, "u7"), (uploads, "u8")]
    threads = [threading.Thread(target=job, args=words) for job, *words in jobs]
    for thread in threads:
        thread.start()
    for thread in threads:
        thread.join()
