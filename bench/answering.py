#!/usr/bin/env python3
"""Answers the request records on standard input from a dict, for `desk.py`.

Each request is read by the parser of Python's http.server. The argument is the file of the
dict: the answer's bytes by method, target and caller.
"""
import pickle
import sys
from http.server import BaseHTTPRequestHandler
from io import BytesIO


class Request(BaseHTTPRequestHandler):
    """A request, as http.server parses its head."""

    def __init__(self, text):
        self.rfile = BytesIO(text)
        self.wfile = BytesIO()
        self.error_code = self.error_message = None
        self.raw_requestline = self.rfile.readline(65537)
        if not self.parse_request():
            sys.exit("a request is not parsed")
        self.body = self.rfile.read(int(self.headers.get("Content-Length", 0)))

    def key(self):
        return self.command, self.path, self.headers.get("Depot-Caller", "")


def records(stream):
    """The bytes of the records, request or answer records, one after the other."""
    while line := stream.readline():
        yield stream.read(int(line.split()[-1]))
        stream.read(1)


def main():
    with open(sys.argv[1], "rb") as file:
        answers = pickle.load(file)
    for text in records(sys.stdin.buffer):
        answer = answers[Request(text).key()]
        sys.stdout.buffer.write(b"ANS %d\n" % len(answer))
        sys.stdout.buffer.write(answer)
        sys.stdout.buffer.write(b"\n")
        sys.stdout.buffer.flush()


if __name__ == "__main__":
    main()
