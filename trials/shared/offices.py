"""Offices: made, served and asked."""
import atexit
import http.client
import re
import select
import signal
import socket
import subprocess

from shared.comparing import fail
from shared.places import POLICY

# How many seconds a program may take to make an office, to listen, and to end.
PATIENCE = 60


def make_office(program, store, policy=POLICY):
    """A new office in this file, or this policy in one that is there."""
    subprocess.run([program, "policy", store, policy], check=True, stdout=subprocess.DEVNULL, timeout=PATIENCE)


def replay(program, store, records, *options):
    """How a replay of these records ended, with what it wrote."""
    words = [program, "replay", *options, store]
    return subprocess.run(words, input=b"".join(records), capture_output=True, timeout=600)


def started(words, patience=PATIENCE, **options):
    """Starts a server. Gives its process, which ends with the script at the latest, and the port that it prints."""
    process = subprocess.Popen(list(map(str, words)), stdout=subprocess.PIPE, **options)
    atexit.register(process.kill)
    said, _, _ = select.select([process.stdout], [], [], patience)
    line = process.stdout.readline() if said else b""
    port = re.fullmatch(rb"listening (\d+)\n", line)
    if not port:
        fail(f"{' '.join(map(str, words))}: a line with its port is wanted, and this came: {line!r}")
    return process, int(port[1])


class Server:
    """`depot serve` over a file."""

    def __init__(self, program, store, day, count=1_000_000, port=0, patience=PATIENCE, **options):
        words = [program, "serve", "--port", port, "--count", count, store, day]
        self.patience = patience
        self.process, self.port = started(words, patience, **options)

    def ended(self):
        """Waits for its end. Its status."""
        status = self.process.wait(self.patience)
        self.process.stdout.close()
        return status

    def stop(self):
        """Ends it, as a unit does."""
        self.process.send_signal(signal.SIGTERM)
        return self.ended()

    def kill(self):
        self.process.kill()
        self.ended()


def answer_to(port, asked, patience=120, piece=1 << 16):
    """The bytes of the answer to a request, by a connection of its own. They are read in pieces of at most this
    length."""
    with socket.create_connection(("127.0.0.1", port), timeout=patience) as peer:
        peer.sendall(asked)
        return b"".join(iter(lambda: peer.recv(piece), b""))


def ask(address, method, target, body=b"", caller="anna"):
    """The status and the body of an office's answer. `address` has a host and a port."""
    peer = http.client.HTTPConnection(address, timeout=60)
    peer.request(method, target, body, {"Depot-Caller": caller, "Content-Length": str(len(body))})
    answer = peer.getresponse()
    return answer.status, answer.read()
