#!/usr/bin/env python3
"""Serves an office over HTTP by http.server and sqlite3 (WAL, synchronous FULL), for `program.py`.

The arguments are the file of an office, a day and how many connections are served. It answers two requests,
with the same bodies as `depot serve`: `GET /deposits/N` and `POST /deposits?..`. Each is one
transaction, the policy is read for each, and a bag is checked by its sha256 manifest.
"""
import hashlib
import json
import sys
from datetime import date, timedelta
from http.server import BaseHTTPRequestHandler, HTTPServer
from urllib.parse import parse_qs, urlsplit

from trial_office import DEPOSITS, HOLDS, PUT_DEPOSIT, opened, put_files
from shared.stores import NEWEST

BEGINNING = date(1970, 1, 1)
LIVE_HOLDS = (
    f"SELECT count(*) FROM {HOLDS} WHERE (deposit = ?1 OR collection = ?2 OR class = ?3) AND released IS NULL"
)
RULES = (
    f"SELECT effect, role, action, collection, class FROM {NEWEST['rule']}"
    " WHERE first <= ?1 AND last >= ?1 ORDER BY place"
)


def number_of(day):
    """The number of a day."""
    return (date.fromisoformat(day) - BEGINNING).days


def day_of(number):
    """The day with this number."""
    return (BEGINNING + timedelta(number)).isoformat()


def due(closed, years):
    """The day on which a deposit that was closed on that day is due."""
    if years < 0:
        return "permanent"
    day = BEGINNING + timedelta(closed)
    try:
        return day.replace(year=day.year + years).isoformat()
    except ValueError:
        return day.replace(year=day.year + years, day=28).isoformat()


def files_of(form):
    """The files of a transfer form, as paths and contents."""
    lines, files = 9, []
    if not form.startswith(b"BAGSET 1\n"):
        raise ValueError("no form")
    while not form.startswith(b"END\n", lines):
        end = form.index(b"\n", lines)
        _, path, content = form[lines:end].split()
        middle = end + 1 + int(path)
        last = middle + int(content)
        files.append((form[end + 1 : middle].decode(), form[middle:last]))
        lines = last + 1
    return files


def payload(files):
    """The payload files and bytes of a bag whose sha256 manifest holds."""
    contents = dict(files)
    listed = contents["manifest-sha256.txt"].decode().splitlines()
    for line in listed:
        digest, path = line.split(None, 1)
        if hashlib.sha256(contents[path]).hexdigest() != digest:
            raise ValueError("another digest")
    kept = [content for path, content in files if path.startswith("data/")]
    if len(kept) != len(listed):
        raise ValueError("a file that is not listed")
    return len(kept), sum(map(len, kept))


class Desk(BaseHTTPRequestHandler):
    """One request, in one transaction."""

    def rows(self, text, *values):
        return self.server.office.execute(text, values).fetchall()

    def may(self, caller, action, collection, retention_class):
        """Whether the first rule that matches on the day allows it."""
        role = self.rows("SELECT role FROM caller WHERE name = ?1", caller)
        asked = (role[0][0] if role else "stranger", action, collection, retention_class)
        rules = self.rows(RULES, self.server.day)
        for effect, *wanted in rules:
            if all(want in ("*", it) for want, it in zip(wanted, asked)):
                return effect == 1
        return False

    def answer(self, status, value):
        body = json.dumps(value, separators=(",", ":"), sort_keys=True).encode()
        self.send_response(status)
        self.send_header("Content-Type", "application/json")
        self.send_header("Content-Length", str(len(body)))
        self.end_headers()
        self.wfile.write(body)

    def do_GET(self):
        number = int(self.path.rsplit("/", 1)[1])
        self.rows("BEGIN")
        row = self.rows(f"SELECT * FROM {DEPOSITS} WHERE number = ?1", number)
        number, accession, collection, retention_class, closed, deposited, files, count, *_ = row[0]
        may = self.may(self.headers["Depot-Caller"], "record", collection, retention_class)
        years = self.rows("SELECT years FROM class WHERE name = ?1", retention_class)[0][0]
        self.rows("ROLLBACK")
        if not may:
            return self.answer(403, {"error": "Denied"})
        self.answer(
            200,
            {
                "accession": accession,
                "bytes": count,
                "class": retention_class,
                "closed": day_of(closed),
                "collection": collection,
                "deposit": number,
                "deposited": day_of(deposited),
                "due": due(closed, years),
                "files": files,
            },
        )

    def do_POST(self):
        asked = {key: it[0] for key, it in parse_qs(urlsplit(self.path).query).items()}
        files = files_of(self.rfile.read(int(self.headers["Content-Length"])))
        count, size = payload(files)
        retention_class, collection = asked["class"], asked["collection"]
        self.rows("BEGIN IMMEDIATE")
        known = (
            self.rows("SELECT name FROM collection WHERE name = ?1", collection)
            and (years := self.rows("SELECT years FROM class WHERE name = ?1", retention_class))
            and self.may(self.headers["Depot-Caller"], "deposit", collection, retention_class)
            and not self.rows(f"SELECT number FROM {DEPOSITS} WHERE accession = ?1", asked["accession"])
        )
        most = self.rows("SELECT max_deposits FROM office WHERE id = 1")[0][0]
        last = self.rows(f"SELECT number FROM {DEPOSITS} ORDER BY number DESC LIMIT 1")
        number = last[0][0] + 1 if last else 1
        if not known or number > most:
            self.rows("ROLLBACK")
            return self.answer(409, {"error": "refused"})
        closed = number_of(asked["closed"])
        row = (number, asked["accession"], collection, retention_class, closed, self.server.day, count, size)
        due_day = due(closed, years[0][0])
        live = self.rows(LIVE_HOLDS, number, collection, retention_class)[0][0]
        self.rows(PUT_DEPOSIT, *row, None if due_day == "permanent" else number_of(due_day), live)
        put_files(self.server.office, number, files)
        self.rows("COMMIT")
        self.answer(201, {"deposit": number})

    def log_message(self, *_):
        pass


def main():
    file, day, count = sys.argv[1:]
    with HTTPServer(("127.0.0.1", 0), Desk) as server:
        server.office, server.day = opened(file), number_of(day)
        print(f"listening {server.server_port}", flush=True)
        for _ in range(int(count)):
            server.handle_request()
        server.office.close()


if __name__ == "__main__":
    main()
