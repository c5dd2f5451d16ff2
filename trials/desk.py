#!/usr/bin/env python3
"""The replay that the gate repeats by `trial_office`: requests to a new office, and the answers, worked out from
`docs/HTTP.md`.

Each row of the tables below is a request and its answer. The tables have every refusal of the desk, beside what it
still accepts at each limit. Where several refusals apply to one request, it has those that come later, too. Then there
is a session with every kind of answer, and with every refusal of the office that a caller can bring about.

`desk.py` compares these rows with `stdin` and `stdout` of `crates/trial_office`; `stdout` begins with the lines of its
cases. `desk.py write` writes both files.

Then the built program answers these requests, and those of a second table that the gate doesn't repeat, byte for byte.
The second office has a policy of version 2, whose rules have days, and is asked before and after each of these days.
Then a policy of version 1 is put in its place.

DEPOT names another program than the one in `crates/depot/out`, which `./depot check examples/bag-a.bagset` builds.
Where neither exists, the last line says that the program wasn't asked.
"""
import os
import pathlib
import sys
import tempfile

from shared import requests
from shared.comparing import fail, shown
from shared.offices import replay
from shared.places import DEPOT, EXAMPLE_BAG, TOP, is_there
from shared.policies import allow, deny, policy

CRATE = TOP / "crates/trial_office"
DAY = "2024-03-01"
STATUS = {200: "OK", 201: "Created", 400: "Bad Request", 403: "Forbidden", 404: "Not Found", 405: "Method Not Allowed",
          409: "Conflict", 410: "Gone", 413: "Content Too Large", 422: "Unprocessable Content"}
BYTES = "application/octet-stream"

BAG = EXAMPLE_BAG.read_bytes()


def refused(name):
    """The answer of the desk's refusal."""
    status = {"TooLarge": 413, "NoRoute": 404}.get(name, 400)
    return status, '{"error":"%s"}' % name


def wrong_method(allowed):
    """The answer where the path doesn't take the method."""
    return 405, '{"error":"Method"}', f"Allow: {allowed}\r\n"


def due(*numbers, day=DAY):
    return 200, '{"day":"%s","deposits":[%s]}' % (day, ",".join(map(str, numbers)))


def none(what):
    return 404, '{"error":"NoSuch","what":"%s"}' % what


def years(name, count):
    return 200, '{"class":"%s","years":%s}' % (name, count)


# A head with this number of bytes, or of fields.
def head_of_bytes(count):
    front = "GET /due HTTP/1.1\r\nX: "
    return front + "x" * (count - len(front) - 4) + "\r\n\r\n"


def head_of_fields(count):
    return "GET /due HTTP/1.1\n" + "A: b\n" * count + "\n"


HEADS = [
    ("", refused("Truncated")),
    ("nonsense", refused("Truncated")),
    ("GET /due HTTP/1.1\r\nDepot-Caller: anna\r\n", refused("Truncated")),
    ("GET /due HTTP/1.1\r\nDepot-Caller: anna\r\n\r", refused("Truncated")),
    ("GET /due HTTP/1.1\r\nDepot-Caller: anna\r\n\r\n", due()),
    ("GET /due HTTP/1.0\n\n", due()),
    ("\r\nGET /due HTTP/1.1\n\r\n", due()),
    ("GET /due HTTP/1.1\n\nGET /x HTTP/1.1\n\n", due()),
    ("\r\n\r\nGET /due HTTP/1.1\r\n\r\n", refused("BadHead")),
    ("nonsense\n\n", refused("BadHead")),
    ("GET /due\n\n", refused("BadHead")),
    ("GET /due HTTP/2.0\n\n", refused("BadHead")),
    (b"GET /\xff HTTP/1.1\n\n", refused("BadHead")),
    ("\n\n", refused("BadHead")),
    ("\r\n\r\n", refused("BadHead")),
    ("GET  /due HTTP/1.1\n\n", refused("BadHead")),
    ("GET /due HTTP/1.1\n Host: a\n\n", refused("BadHead")),
    ("GET /due HTTP/1.1\nHost : a\n\n", refused("BadHead")),
    ("get * HTTP/1.1\n\r\n", refused("NoRoute")),
    ("PUT /caf\u00e9 HTTP/1.1\n\n", refused("NoRoute")),
    ("GET /due HTTP/1.1\nExpect: 100-continue\nX: Transfer-Encoding\n\n", due()),
    (head_of_bytes(8192), due()),
    (head_of_bytes(8193), refused("TooLarge")),
    ("x" * 8192 + "\n\n", refused("TooLarge")),
    ("x" * 8191, refused("Truncated")),
    (head_of_fields(64), due()),
    (head_of_fields(65), refused("BadHead")),
    (
        "GET /x HTTP/1.1\nDepot-Caller: a\nDepot-Caller: a\nContent-Length: x\nTransfer-Encoding: a\n\n",
        refused("Chunked"),
    ),
    ("GET /due HTTP/1.1\ntransfer-ENCODING:\n\n", refused("Chunked")),
    ("GET /due HTTP/1.1\nTransfer-Encoding: a\nTransfer-Encoding: b\n\n", refused("Chunked")),
    ("GET /due HTTP/1.1\nContent-Length: x\nTransfer-Encoding: identity\n\n", refused("Chunked")),
    ("GET /due HTTP/1.1\nTransfer-Encodings: chunked\n\n", due()),
    ("GET /x HTTP/1.1\nDepot-Caller: a\nDepot-Caller: a\nContent-Length: x\n\n", refused("BadLength")),
    ("GET /due HTTP/1.1\nContent-Length: 0\nContent-Length: 0\n\n", refused("BadLength")),
    ("GET /due HTTP/1.1\nContent-Length:\n\n", refused("BadLength")),
    ("GET /due HTTP/1.1\nContent-Length: 16777217\nContent-Length: 16777217\n\n", refused("BadLength")),
    ("GET /due HTTP/1.1\nContent-Length: +0\n\n", refused("BadLength")),
    ("GET /due HTTP/1.1\nContent-Length: -1\n\n", refused("BadLength")),
    ("GET /due HTTP/1.1\nContent-Length: 5 5\n\n", refused("BadLength")),
    ("GET /due HTTP/1.1\nContent-Length: 0x5\n\n", refused("BadLength")),
    ("GET /due HTTP/1.1\nContent-Length: " + "0" * 21 + "\n\n", refused("BadLength")),
    ("GET /due HTTP/1.1\nContent-Length: " + "0" * 20 + "\n\n", due()),
    ("GET /due HTTP/1.1\ncontent-LENGTH: \t0 \n\n", due()),
    ("GET /x HTTP/1.1\nDepot-Caller: a\nDepot-Caller: a\nContent-Length: 16777217\n\n", refused("TooLarge")),
    ("GET /due HTTP/1.1\nContent-Length: 99999999999999999999\n\n", refused("TooLarge")),
    ("GET /due HTTP/1.1\nContent-Length: 16777217\n\n", refused("TooLarge")),
    ("GET /due HTTP/1.1\nContent-Length: 16777216\n\n", refused("Truncated")),
]

# Neither a clerk nor a stranger may define a class; so who is heard is seen.
CLERK, STRANGER = (403, '{"error":"Denied","rule":2}'), (403, '{"error":"Denied","rule":3}')
CALLERS = [
    ("GET /x HTTP/1.1\nDepot-Caller: a\nDepot-Caller: a\nContent-Length: 5\n\n", refused("TwoCallers")),
    ("GET /due HTTP/1.1\nDepot-Caller: anna\ndepot-caller:\n\n", refused("TwoCallers")),
    ('PUT /classes/y1 HTTP/1.1\ndepot-CALLER:anna\t\nContent-Length: 11\n\n{"years":1}', years("y1", 1)),
    ('PUT /classes/y1 HTTP/1.1\nDepot-Caller: carl\nContent-Length: 11\n\n{"years":1}', CLERK),
    (
        "PUT /classes/y1 HTTP/1.1\nDepot-Caller: abcdefghijabcdefghijabcdefghijabcdefghij\n"
        'Content-Length: 11\n\n{"years":1}',
        years("y1", 1),
    ),
    (
        "PUT /classes/y1 HTTP/1.1\nDepot-Caller: abcdefghijabcdefghijabcdefghijabcdefghijk\n"
        'Content-Length: 11\n\n{"years":1}',
        STRANGER,
    ),
    ('PUT /classes/y1 HTTP/1.1\nDepot-Caller: Anna\nContent-Length: 11\n\n{"years":1}', STRANGER),
    (b'PUT /classes/y1 HTTP/1.1\nDepot-Caller: \xff\nContent-Length: 11\n\n{"years":1}', STRANGER),
    ('PUT /classes/y1 HTTP/1.1\nDepot-Caller:\nContent-Length: 11\n\n{"years":1}', STRANGER),
    ('PUT /classes/y1 HTTP/1.1\nContent-Length: 11\n\n{"years":1}', STRANGER),
]

# Paths that name nothing.
NOTHING = [
    "//", "//due", "/due/1", "/Due", "/DUE", "/dues", "/du", "/%64ue", "/due%3F", "http://depot/due", "/classes",
    "/classes/", "/classes//", "/classes/y10/", "/classes//y10", "/classes/y10/y10", "/classes/Y10", "/classes/y%31",
    "/Classes/y10", "/class/y10", "/classes/abcdefghijabcdefghijabcdefghijabcdefghija", "/collections", "/collections/",
    "/collections/tax/", "/collections/T", "/deposits/", "/deposits/00000001", "/deposits/+1", "/deposits/-1",
    "/deposits/1a", "/deposits/%31", "/deposits/\u0663", "/deposits/1/", "/deposits//holds", "/deposits/1/Holds",
    "/deposits/1/holds/", "/deposits/1/holds/2", "/deposits/01/files/a", "/holds/", "/holds/08",
]

PATHS = [
    (f"{method} {path} HTTP/1.1\n\n", refused("NoRoute"))
    for path in NOTHING
    for method in ("DELETE", "GET", "POST", "PUT")
] + [
    ("GET /x?a=b HTTP/1.1\nContent-Length: 5\n\n", refused("NoRoute")),
    ("HEAD /x HTTP/1.1\nDepot-Caller: anna\n\n", refused("NoRoute")),
    ("GET * HTTP/1.1\n\n", refused("NoRoute")),
    ("GET / HTTP/1.1\n\n", refused("NoRoute")),
    ("GET /due/ HTTP/1.1\n\n", refused("NoRoute")),
    ("GET /d%75e HTTP/1.1\n\n", refused("NoRoute")),
    ("PUT /classes/y%31 HTTP/1.1\n\n", refused("NoRoute")),
    ("PUT /collections/Tax HTTP/1.1\n\n", refused("NoRoute")),
    ("PUT /collections/tax HTTP/1.1\nDepot-Caller: anna\n\n", (200, '{"collection":"tax"}')),
    ("PUT /collections/- HTTP/1.1\nDepot-Caller: anna\n\n", (200, '{"collection":"-"}')),
    ("PUT /collections/a.b_c-9 HTTP/1.1\nDepot-Caller: anna\n\n", (200, '{"collection":"a.b_c-9"}')),
    ("PUT /collections/holds HTTP/1.1\nDepot-Caller: anna\n\n", (200, '{"collection":"holds"}')),
    ("PUT /collections/abcdefghijabcdefghijabcdefghijabcdefghij HTTP/1.1\nDepot-Caller: anna\n\n",
     (200, '{"collection":"abcdefghijabcdefghijabcdefghijabcdefghij"}')),
    ("GET /deposits/0 HTTP/1.1\n\n", none("deposit")),
    ("GET /deposits/00 HTTP/1.1\n\n", refused("NoRoute")),
    ("GET /deposits/07 HTTP/1.1\n\n", refused("NoRoute")),
    ("GET /deposits/9999999 HTTP/1.1\n\n", none("deposit")),
    ("GET /deposits/10000000 HTTP/1.1\n\n", refused("NoRoute")),
    ("DELETE /deposits/7 HTTP/1.1\n\n", none("deposit")),
    ("GET /deposits/7/holds HTTP/1.1\n\n", none("deposit")),
    ("GET /deposits/7/bag HTTP/1.1\n\n", none("deposit")),
    ("GET /deposits/7/audit HTTP/1.1\n\n", none("deposit")),
    ("GET /deposits/7/files/a HTTP/1.1\n\n", none("deposit")),
    ("DELETE /holds/3 HTTP/1.1\n\n", none("hold")),
    ("DELETE /holds/03 HTTP/1.1\n\n", refused("NoRoute")),
    ("GET /deposits/1/files/ HTTP/1.1\n\n", refused("NoRoute")),
    ("GET /deposits/1/files HTTP/1.1\n\n", refused("NoRoute")),
]

METHODS = [
    ("HEAD /due?a=b HTTP/1.1\nContent-Length: 5\n\n", wrong_method("GET")),
    ("get /due HTTP/1.1\n\n", wrong_method("GET")),
    ("GE /due HTTP/1.1\n\n", wrong_method("GET")),
    ("GETS /due HTTP/1.1\n\n", wrong_method("GET")),
    ("GET /classes/y10 HTTP/1.1\n\n", wrong_method("PUT")),
    ("GET /collections/tax HTTP/1.1\n\n", wrong_method("PUT")),
    ("POST /classes/y10 HTTP/1.1\n\n", wrong_method("PUT")),
    ("DELETE /collections/tax HTTP/1.1\n\n", wrong_method("PUT")),
    ("PUT /deposits HTTP/1.1\n\n", wrong_method("GET, POST")),
    ("DELETE /deposits HTTP/1.1\n\n", wrong_method("GET, POST")),
    ("POST /deposits/7 HTTP/1.1\n\n", wrong_method("DELETE, GET")),
    ("PUT /deposits/7 HTTP/1.1\n\n", wrong_method("DELETE, GET")),
    ("POST /deposits/7/holds HTTP/1.1\n\n", wrong_method("GET")),
    ("POST /deposits/7/bag HTTP/1.1\n\n", wrong_method("GET")),
    ("DELETE /deposits/7/files/a HTTP/1.1\n\n", wrong_method("GET")),
    ("PUT /deposits/7/audit HTTP/1.1\n\n", wrong_method("GET")),
    ("GET /holds HTTP/1.1\n\n", wrong_method("POST")),
    ("GET /holds/3 HTTP/1.1\n\n", wrong_method("DELETE")),
]

NO_DEPOSITS = (200, '{"deposits":[]}')
POST = "POST /deposits?collection=maps&class=y1&accession=A-1&closed=2024-02-29"
QUERIES = [
    ("GET /due?a=b HTTP/1.1\nContent-Length: 5\n\n", refused("BadQuery")),
    ("GET /due?= HTTP/1.1\n\n", refused("BadQuery")),
    ("GET /due?x HTTP/1.1\n\n", refused("BadQuery")),
    ("GET /due? HTTP/1.1\n\n", due()),
    ("GET /due?&& HTTP/1.1\n\n", due()),
    ("DELETE /deposits/7?x=y HTTP/1.1\n\n", refused("BadQuery")),
    ("GET /deposits/7/files/a?b HTTP/1.1\n\n", refused("BadQuery")),
    ("GET /deposits HTTP/1.1\n\n", NO_DEPOSITS),
    ("GET /deposits?class=y1&&collection=tax& HTTP/1.1\n\n", NO_DEPOSITS),
    ("GET /deposits?class=none HTTP/1.1\n\n", NO_DEPOSITS),
    ("GET /deposits?collection=none HTTP/1.1\n\n", NO_DEPOSITS),
    ("GET /deposits?%63lass=y%31 HTTP/1.1\n\n", NO_DEPOSITS),
    ("GET /deposits?class=y1&%63lass=y1 HTTP/1.1\n\n", refused("BadQuery")),
    ("GET /deposits?class=Y1 HTTP/1.1\n\n", refused("BadQuery")),
    ("GET /deposits?class=y+1 HTTP/1.1\n\n", refused("BadQuery")),
    ("GET /deposits?Class=y1 HTTP/1.1\n\n", refused("BadQuery")),
    ("GET /deposits?closed=y1 HTTP/1.1\n\n", refused("BadQuery")),
    ("POST /deposits?collection=maps&class=y1&accession=A-1 HTTP/1.1\nContent-Length: 5\n\n", refused("BadQuery")),
    (
        "POST /deposits?collection=maps&class=y1&class=y1&accession=A-1&closed=2024-02-29 HTTP/1.1\n\n",
        refused("BadQuery"),
    ),
    ("POST /deposits?collection=maps&class=y1&accession=A-1&closed=2025-02-29 HTTP/1.1\n\n", refused("BadQuery")),
    (POST + "&x HTTP/1.1\n\n", refused("BadQuery")),
    ('POST /holds?x=y HTTP/1.1\nContent-Length: 31\n\n{"deposit":1,"matter":"Case 7"}', refused("BadQuery")),
]


def body(line, text, caller="anna"):
    """A request with this body."""
    return f"{line} HTTP/1.1\nDepot-Caller: {caller}\nContent-Length: {len(text.encode())}\n\n{text}"


CLASS, HOLD = "PUT /classes/y10", "POST /holds"
BODIES = [
    ("GET /due HTTP/1.1\nContent-Length: 5\n\nabcd", refused("Truncated")),
    ("GET /due HTTP/1.1\nContent-Length: 5\n\nabcde", refused("BadBody")),
    ("GET /due HTTP/1.1\nContent-Length: 1\n\n ", refused("BadBody")),
    ("GET /due HTTP/1.1\nContent-Length: 0\n\nabcde", due()),
    (POST + " HTTP/1.1\nContent-Length: 5\n\nabcd", refused("Truncated")),
    ('PUT /classes/y10 HTTP/1.1\nContent-Length: 12\n\n{"years":10', refused("Truncated")),
    ('PUT /classes/y10 HTTP/1.1\nContent-Length: 11\n\n{"years":10}', refused("BadBody")),
    ('PUT /classes/y10 HTTP/1.1\nDepot-Caller: anna\nContent-Length: 12\n\n{"years":10}}', years("y10", 10)),
    (body(CLASS, '{"years":10}}'), refused("BadBody")),
    ("PUT /classes/y10 HTTP/1.1\n\n", refused("BadBody")),
    (body(CLASS, '{"years":200}'), years("y10", 200)),
    (body(CLASS, '{"years":201}'), refused("BadBody")),
    (body(CLASS, '{"years":0}'), years("y10", 0)),
    (body(CLASS, '{"years":-0}'), refused("BadBody")),
    (body(CLASS, '{"years":1.0}'), refused("BadBody")),
    (body(CLASS, '{"years":1e0}'), refused("BadBody")),
    (body(CLASS, '{"years":null}'), years("y10", "null")),
    (body(CLASS, '{"years":0,"years":1}'), years("y10", 1)),
    (body(CLASS, '{"years":1e999,"years":1}'), refused("BadBody")),
    (body(CLASS, '{"years":1,"name":"y"}'), refused("BadBody")),
    (body(HOLD, '{"deposit":1,"matter":"Case 7"}'), none("deposit")),
    (body(HOLD, '{"deposit":9999999,"matter":"a"}'), none("deposit")),
    (body(HOLD, '{"matter":"Case 7","collection":"none"}'), none("collection")),
    (body(HOLD, '{"matter":"Case 7","class":"none"}'), none("class")),
    (body(HOLD, '{"deposit":0,"matter":"a"}'), refused("BadBody")),
    (body(HOLD, '{"deposit":10000000,"matter":"a"}'), refused("BadBody")),
    (body(HOLD, '{"deposit":1}'), refused("BadBody")),
    (body(HOLD, '{"deposit":1,"matter":""}'), refused("BadBody")),
    (body(HOLD, '{"deposit":1,"collection":"maps","matter":"m"}'), refused("BadBody")),
    (body(HOLD, '{"class":"y1","collection":"maps","matter":"m"}'), refused("BadBody")),
    ('POST /holds HTTP/1.1\n\n{"deposit":1,"matter":"Case 7"}', refused("BadBody")),
]


def asked(line, caller="anna"):
    """A request without a body."""
    return f"{line} HTTP/1.1\r\nDepot-Caller: {caller}\r\n\r\n"


def deposited(accession, closed="2024-02-29", collection="maps", class_="y1", bag=BAG):
    """A request that deposits a bag."""
    line = f"POST /deposits?collection={collection}&class={class_}&accession={accession}&closed={closed}"
    return f"{line} HTTP/1.1\r\nDepot-Caller: anna\r\nContent-Length: {len(bag)}\r\n\r\n".encode() + bag


def told(number, accession, class_, until, closed="2024-02-29"):
    """A record."""
    return (f'{{"accession":"{accession}","bytes":3,"class":"{class_}","closed":"{closed}","collection":"maps",'
            f'"deposit":{number},"deposited":"2024-03-01","due":"{until}","files":1}}')


ONE, TWO = told(1, "A-1", "y1", "2025-02-28"), told(2, "A-2", "good", "permanent")
VALID = '{"bytes":3,"deposit":1,"files":1,"manifests":1,"valid":true,"version":"1.0"}'
ON_ONE = '{"hold":1,"matter":"Case 7","on":"deposit","placed":"2024-03-02"}'
ON_MAPS = (
    '{"hold":2,"matter":"\\"\\\\/ \u00e9\u20ac\U0001f600\u0080\u009f\u2028","on":"collection","placed":"2024-03-02"}'
)
ON_CLASS = '{"hold":3,"matter":"Case 9","on":"class","placed":"2024-03-02"}'

# A request, its answer, and its day where that isn't the first.
SESSION = [
    (body("PUT /classes/good", '{"years":null}'), years("good", "null")),
    (asked("PUT /collections/maps"), (200, '{"collection":"maps"}')),
    (deposited("A-1"), (201, '{"deposit":1}')),
    (deposited("A-1"), (409, '{"deposit":1,"error":"Taken"}')),
    (deposited("A-2", closed="2024-03-02"), (409, '{"error":"ClosedAhead"}')),
    (deposited("A-2", collection="none"), none("collection")),
    (deposited("A-2", class_="none"), none("class")),
    (deposited("A-2", bag=BAG[:-1]), (422, '{"error":"BadBag","fault":"S3"}')),
    (deposited("A-2", bag=b"BAGSET 1\nEND\n"), (422, '{"error":"BadBag","fault":"B1"}')),
    (deposited("A-2", class_="good"), (201, '{"deposit":2}')),
    (asked("GET /deposits"), (200, '{"deposits":[%s,%s]}' % (ONE, TWO))),
    (asked("GET /deposits?class=good"), (200, '{"deposits":[%s]}' % TWO)),
    (asked("GET /deposits/1"), (200, ONE)),
    (asked("GET /deposits/2"), (200, TWO)),
    (asked("GET /deposits/1/bag"), (200, BAG)),
    (asked("GET /deposits/1/files/data/a"), (200, b"abc")),
    (asked("GET /deposits/1/files/data%2f%61"), (200, b"abc")),
    (asked("GET /deposits/1/files/data/b"), (404, '{"error":"NoFile"}')),
    (asked("GET /deposits/1/files//"), (404, '{"error":"NoFile"}')),
    (asked("GET /deposits/1/files/data/%2561"), (404, '{"error":"NoFile"}')),
    (asked("GET /deposits/1/files/data/a%4"), (404, '{"error":"NoFile"}')),
    (asked("GET /deposits/1/files/%ff"), (404, '{"error":"NoFile"}')),
    # A bad path is refused in its place: after a missing deposit, a denial and (below) a deposit that is gone.
    (asked("GET /deposits/3/files/%ff"), none("deposit")),
    (asked("GET /deposits/1/files/%ff", caller="carl"), (403, '{"error":"Denied","rule":4}')),
    (asked("GET /deposits/1/audit"), (200, VALID)),
    (asked("GET /deposits/1/holds"), (200, '{"holds":[]}')),
    (body(HOLD, '{"deposit":1,"matter":"Case 7"}'), (201, '{"hold":1}'), "2024-03-02"),
    (
        body(HOLD, '{"matter":"\\"\\\\\\/ \\u00e9\\u20ac\\ud83d\\ude00\\u0080\\u009f\\u2028","collection":"maps"}'),
        (201, '{"hold":2}'),
        "2024-03-02",
    ),
    (asked("GET /deposits/1/holds"), (200, '{"holds":[%s,%s]}' % (ON_ONE, ON_MAPS)), "2024-03-02"),
    (body(HOLD, '{"class":"y1","matter":"Case 9"}'), (201, '{"hold":3}'), "2024-03-02"),
    (asked("GET /deposits/1/holds"), (200, '{"holds":[%s,%s,%s]}' % (ON_ONE, ON_MAPS, ON_CLASS)), "2024-03-02"),
    (asked("GET /deposits/2/holds"), (200, '{"holds":[%s]}' % ON_MAPS), "2024-03-02"),
    (asked("DELETE /deposits/1"), (409, '{"error":"Held","hold":1}'), "2025-02-28"),
    (asked("DELETE /holds/1"), (200, '{"hold":1,"released":"2025-02-27"}'), "2025-02-27"),
    (asked("DELETE /holds/1"), (409, '{"day":"2025-02-27","error":"Released"}'), "2025-02-28"),
    (asked("DELETE /deposits/1"), (409, '{"error":"Held","hold":2}'), "2025-02-28"),
    (asked("DELETE /holds/2"), (200, '{"hold":2,"released":"2025-02-27"}'), "2025-02-27"),
    (asked("GET /due"), due(day="2025-02-28"), "2025-02-28"),
    (asked("DELETE /deposits/1"), (409, '{"error":"Held","hold":3}'), "2025-02-28"),
    (asked("DELETE /holds/3"), (200, '{"hold":3,"released":"2025-02-27"}'), "2025-02-27"),
    (asked("DELETE /deposits/1"), (409, '{"due":"2025-02-28","error":"NotDue"}'), "2025-02-27"),
    (asked("DELETE /deposits/2"), (409, '{"due":"permanent","error":"NotDue"}'), "2025-02-28"),
    (asked("GET /due"), due(day="2025-02-27"), "2025-02-27"),
    (asked("GET /due"), due(1, day="2025-02-28"), "2025-02-28"),
    (asked("DELETE /deposits/1", caller="carl"), (403, '{"error":"Denied","rule":1}'), "2025-02-28"),
    (asked("GET /due", caller="carl"), due(day="2025-02-28"), "2025-02-28"),
    (asked("DELETE /deposits/1"), (200, '{"day":"2025-02-28","destroyed":1}'), "2025-02-28"),
    (asked("GET /deposits/1"), (410, '{"day":"2025-02-28","error":"Gone"}'), "2025-03-01"),
    (asked("GET /deposits/1/files//"), (410, '{"day":"2025-02-28","error":"Gone"}'), "2025-03-01"),
    (asked("DELETE /holds/1"), (409, '{"day":"2025-02-27","error":"Released"}'), "2025-03-01"),
    (deposited("A-1"), (409, '{"deposit":1,"error":"Taken"}'), "2025-03-01"),
    (asked("GET /deposits"), (200, '{"deposits":[%s]}' % TWO), "2025-03-01"),
]

# Queries of a list. A class or a collection that is not there has no deposits.
LISTS = [(f"GET /deposits?{query} HTTP/1.1\n\n", given) for query, given in [
    ("collection=tax", NO_DEPOSITS),
    ("class=y10", NO_DEPOSITS),
    ("collection=tax&class=y10", NO_DEPOSITS),
    ("&class=y10&&collection=tax&", NO_DEPOSITS),
    ("%63lass=y%31%30", NO_DEPOSITS),
    ("class=abcdefghijabcdefghijabcdefghijabcdefghij", NO_DEPOSITS),
    *((query, refused("BadQuery")) for query in [
        "class=abcdefghijabcdefghijabcdefghijabcdefghijk", "class=", "class", "class=Y10", "class=y%20", "class=%ff",
        "class=y10=", "class%20=y10", "class=y10&class=y10", "collection=tax&collection=maps",
        "class=y10&closed=2024-02-29", "class=y10&x", "class=y10&=", "=y10", "?class=y10"]),
]]

# Queries of a deposit.
TAKEN = (409, '{"deposit":1,"error":"Taken"}')
ALL_FOUR = "collection=maps&class=y10&accession=A-1&closed=2024-02-29"
DEPOSITS = [(
    f"POST /deposits?{query} HTTP/1.1\nDepot-Caller: anna\nContent-Length: {len(BAG)}\n\n".encode() + BAG,
    given,
    "2025-03-01",
) for query, given in [
    (ALL_FOUR, TAKEN),
    ("closed=2024-02-29&accession=A-1&class=y10&collection=maps", TAKEN),
    ("&collection=maps&&class=y10&accession=A-1&closed=2024-02-29&", TAKEN),
    ("c%6Fllection=m%61ps&class=y10&accession=%41%2D1&closed=2024%2d02%2d29", TAKEN),
    ("collection=maps&class=y10&accession=A-1&closed=1900-01-01", TAKEN),
    ("collection=maps&class=y10&accession=A-1&closed=9799-12-31", TAKEN),
    (f"collection=none&class=y10&accession={'A' * 64}&closed=2024-02-29", none("collection")),
    (f"collection=none&class=y10&accession={'A' * 65}&closed=2024-02-29", refused("BadQuery")),
    *((query, refused("BadQuery")) for query in [
        "", "class=y10&accession=A-1&closed=2024-02-29", "collection=maps&accession=A-1&closed=2024-02-29",
        "collection=maps&class=y10&closed=2024-02-29", "collection=maps&class=y10&accession=A-1",
        ALL_FOUR + "&closed=2024-02-29", ALL_FOUR + "&collection=maps", ALL_FOUR + "&accession=A-2", ALL_FOUR + "&x=",
        ALL_FOUR + "&=", "collection=Maps&class=y10&accession=A-1&closed=2024-02-29",
        "collection=maps&class=&accession=A-1&closed=2024-02-29",
        "collection=maps&class=y10&accession=A+1&closed=2024-02-29",
        "collection=maps&class=y10&accession=A-1&closed=2024-2-29",
        "collection=maps&class=y10&accession=A-1&closed=1899-12-31",
        "collection=maps&class=y10&accession=A-1&closed=9800-01-01",
        "collection=maps&class=y10&accession=A-1&closed="]),
]]

# Bodies of a class.
YEARS = [(body(CLASS, text), given) for text, given in [
    (' {\n"years" : 10 }\r\n\t', years("y10", 10)),
    ('{"ye\\u0061rs":10}', years("y10", 10)),
    ('{"years":1,"years":null}', years("y10", "null")),
    ('{"years":201,"years":"x","years":200}', years("y10", 200)),
    ('{"years":' + "[" * 126 + "]" * 126 + ',"years":1}', years("y10", 1)),
    *((text, refused("BadBody")) for text in [
        '{"years":' + "[" * 127 + "]" * 127 + ',"years":1}', '{"years":200,"years":201}',
        '{"years":"\\ud800","years":1}', '{"years":456}', '{"years":-1}', '{"years":010}',
        '{"years":18446744073709551616}', '{"years":"10"}', '{"years":true}', '{"years":[10]}', '{"years":{}}',
        '{"Years":10}', "{}", "[10]", "10", "null", '{"years":10} x', '{"years":10']),
]] + [(
    b'PUT /classes/y10 HTTP/1.1\nDepot-Caller: anna\nContent-Length: 23\n\n{"years":"\xff","years":1}',
    refused("BadBody"),
)]

# Bodies of a hold, on an office that has destroyed deposit 1.
GONE = (410, '{"day":"2025-02-28","error":"Gone"}')
HOLDS = [(body(HOLD, text), given, "2025-03-01") for text, given in [
    ('{"matter":"Case 7","deposit":1}', GONE),
    ('{"collection":"tax","matter":"Case 7"}', (201, '{"hold":4}')),
    ('{"matter":"Case 7","collection":"tax"}', (201, '{"hold":5}')),
    ('{"deposit":1,"deposit":2,"matter":"a"}', (201, '{"hold":6}')),
    ('{"class":"y10","matter":"Case 7"}', (201, '{"hold":7}')),
    ('{"matter":"Case 7","class":"y10"}', (201, '{"hold":8}')),
    ('{"class":"Y10","class":"y10","matter":"a"}', (201, '{"hold":9}')),
    ('{"cl\\u0061ss":"y\\u00310","matter":"a"}', (201, '{"hold":10}')),
    ('{"class":"y10","class":"none","matter":"a"}', none("class")),
    ('{"class":"abcdefghijabcdefghijabcdefghijabcdefghij","matter":"a"}', none("class")),
    ('{"deposit":0,"matter":"a","deposit":3}', none("deposit")),
    ('{"deposit":3,"matter":"%s"}' % ("m" * 200), none("deposit")),
    ('{"deposit":3,"matter":"%s"}' % ("\u00e9" * 100), none("deposit")),
    ('{"deposit":3,"matter":"%s"}' % ("m" * 201), refused("BadBody")),
    ('{"deposit":3,"matter":"%sm"}' % ("\u00e9" * 100), refused("BadBody")),
    *((text, refused("BadBody")) for text in [
        '{"deposit":4294967297,"matter":"a"}', '{"deposit":-1,"matter":"a"}', '{"deposit":1.0,"matter":"a"}',
        '{"deposit":"1","matter":"a"}', '{"deposit":null,"matter":"a"}', '{"collection":1,"matter":"a"}',
        '{"collection":"Tax","matter":"a"}', '{"collection":"","matter":"a"}', '{"deposit":1,"matter":"a\\nb"}',
        '{"deposit":1,"matter":"a\\u007f"}', '{"deposit":1,"matter":7}',
        '{"deposit":1,"matter":"a","placed":"2024-03-02"}', '{"collection":"tax","deposit":1}', '{"matter":"a"}',
        '{"class":"y10","collection":"tax","matter":"a"}', '{"class":"y10","deposit":2,"matter":"a"}',
        '{"class":"y10","collection":"tax","deposit":2,"matter":"a"}', '{"collection":"tax","deposit":2,"class":"y10"}',
        '{"class":"y10","collection":"tax"}', '{"class":"y10","deposit":2}', '{"class":"y10"}',
        '{"class":"y10","matter":""}', '{"class":"y10","matter":null}', '{"class":"Y10","matter":"a"}',
        '{"class":"","matter":"a"}', '{"class":1,"matter":"a"}', '{"class":null,"matter":"a"}',
        '{"class":["y10"],"matter":"a"}', '{"class":"abcdefghijabcdefghijabcdefghijabcdefghijk","matter":"a"}',
        '{"Class":"y10","matter":"a"}', '{"classes":"y10","matter":"a"}',
        '{"class":"y10","matter":"a","placed":"2024-03-02"}', "{}", '[1,"a"]', ""]),
]]

POLICY = policy(
    {"anna": "archivist", "abcdefghijabcdefghijabcdefghijabcdefghij": "archivist", "carl": "clerk"},
    deny("clerk", "dispose"),
    deny("clerk", "class"),
    deny("stranger", "class"),
    deny("clerk", "download"),
    allow("*", "*"),
)
DATED_POLICY = policy(
    {"anna": "archivist", "carl": "clerk"},
    deny("clerk", "dispose", last="2024-03-01"),
    deny("clerk", "class", first="2024-03-02", last="2024-03-02"),
    allow("clerk", "*", last="2024-12-31"),
    deny("archivist", "hold", "*", "y1", first="2024-03-02"),
    allow("archivist", "*", first="1900-01-01", last="9799-12-31"),
    allow("*", "list", first="9799-12-31"),
)


def denied(rule):
    return 403, '{"error":"Denied","rule":%s}' % (rule if isinstance(rule, int) else '"default"')


def told_hold(number, on, placed=DAY):
    return f'{{"hold":{number},"matter":"Case {number}","on":"{on}","placed":"{placed}"}}'


EARLY = told(2, "A-2", "y1", "2024-02-28", closed="2023-02-28")

# An office with that policy, on the days about those of its rules.
DATED = [
    (body("PUT /classes/y1", '{"years":1}'), years("y1", 1)),
    (asked("PUT /collections/maps"), (200, '{"collection":"maps"}')),
    (deposited("A-1"), (201, '{"deposit":1}')),
    # Rule 2 counts on one day, and rule 3 up to its last.
    (body("PUT /classes/y2", '{"years":2}', caller="carl"), years("y2", 2)),
    (body("PUT /classes/y2", '{"years":2}', caller="carl"), denied(2), "2024-03-02"),
    (body("PUT /classes/y2", '{"years":2}', caller="carl"), years("y2", 2), "2024-03-03"),
    (body("PUT /classes/y2", '{"years":2}', caller="carl"), years("y2", 2), "2024-12-31"),
    (body("PUT /classes/y2", '{"years":2}', caller="carl"), denied(None), "2025-01-01"),
    # Rule 4 denies a hold on its class, and of a deposit in it, from its first day on; one on a collection names no
    # class.
    (body(HOLD, '{"class":"y1","matter":"Case 1"}'), (201, '{"hold":1}')),
    (body(HOLD, '{"class":"y1","matter":"Case 2"}'), denied(4), "2024-03-02"),
    (body(HOLD, '{"class":"y1","matter":"Case 2"}'), denied(4), "9799-12-31"),
    (body(HOLD, '{"deposit":1,"matter":"Case 2"}'), denied(4), "2024-03-02"),
    (body(HOLD, '{"collection":"maps","matter":"Case 2"}'), (201, '{"hold":2}'), "2024-03-02"),
    (body(HOLD, '{"class":"y2","matter":"Case 3"}'), (201, '{"hold":3}'), "2024-03-02"),
    (body(HOLD, '{"class":"maps","matter":"Case 4"}'), none("class"), "2024-03-02"),
    (body(HOLD, '{"class":"none","matter":"Case 4"}', caller="eve"), none("class")),
    (body(HOLD, '{"class":"y1","matter":"Case 4"}', caller="eve"), denied(None)),
    (body(HOLD, '{"class":"y1","collection":"maps","matter":"Case 4"}'), refused("BadBody"), "2024-03-02"),
    (body(HOLD, '{"matter":"Case 4"}'), refused("BadBody"), "2024-03-02"),
    (body(HOLD, '{"class":"y1"}'), refused("BadBody"), "2024-03-02"),
    # A deposit that comes later is held, too: by the class and by the collection.
    (deposited("A-2", closed="2023-02-28"), (201, '{"deposit":2}'), "2024-03-01"),
    (
        asked("GET /deposits/2/holds"),
        (200, '{"holds":[%s,%s]}' % (told_hold(1, "class"), told_hold(2, "collection", "2024-03-02"))),
    ),
    (asked("DELETE /deposits/2"), (409, '{"error":"Held","hold":1}'), "2024-03-02"),
    (asked("DELETE /deposits/2", caller="carl"), denied(1)),
    (asked("DELETE /deposits/2", caller="carl"), (409, '{"error":"Held","hold":1}'), "2024-03-02"),
    (asked("DELETE /holds/1", caller="eve"), denied(None)),
    (asked("DELETE /holds/1", caller="carl"), denied(None), "2025-01-01"),
    (asked("DELETE /holds/1", caller="carl"), (200, '{"hold":1,"released":"2024-12-31"}'), "2024-12-31"),
    (asked("DELETE /holds/1"), (409, '{"day":"2024-12-31","error":"Released"}'), "2025-01-01"),
    (asked("DELETE /holds/1", caller="eve"), denied(None), "2025-01-01"),
    (asked("GET /deposits/1/holds"), (200, '{"holds":[%s]}' % told_hold(2, "collection", "2024-03-02"))),
    (asked("GET /due"), due(day="2025-02-28"), "2025-02-28"),
    (asked("DELETE /holds/2"), (200, '{"hold":2,"released":"2025-01-01"}'), "2025-01-01"),
    # What is due to a caller is so by the rules of the day that is asked about.
    (asked("GET /due"), due(day="2024-02-27"), "2024-02-27"),
    (asked("GET /due"), due(2, day="2024-02-28"), "2024-02-28"),
    (asked("GET /due"), due(1, 2, day="2025-02-28"), "2025-02-28"),
    (asked("GET /due", caller="carl"), due()),
    (asked("GET /due", caller="carl"), due(2, day="2024-03-02"), "2024-03-02"),
    (asked("GET /due", caller="carl"), due(2, day="2024-12-31"), "2024-12-31"),
    (asked("GET /due", caller="carl"), due(day="2025-01-01"), "2025-01-01"),
    # So is a list.
    (asked("GET /deposits", caller="carl"), (200, '{"deposits":[%s,%s]}' % (ONE, EARLY)), "2024-12-31"),
    (asked("GET /deposits", caller="carl"), NO_DEPOSITS, "2025-01-01"),
    (asked("GET /deposits", caller="eve"), NO_DEPOSITS, "9799-12-30"),
    (asked("GET /deposits", caller="eve"), (200, '{"deposits":[%s,%s]}' % (ONE, EARLY)), "9799-12-31"),
    (asked("GET /deposits", caller="carl"), (200, '{"deposits":[%s,%s]}' % (ONE, EARLY)), "1900-01-01"),
    (asked("DELETE /deposits/2", caller="carl"), denied(1)),
    (asked("DELETE /deposits/2", caller="carl"), (200, '{"day":"2024-03-02","destroyed":2}'), "2024-03-02"),
    (asked("DELETE /deposits/2", caller="carl"), denied(None), "2025-01-01"),
    (asked("GET /deposits/2"), (410, '{"day":"2024-03-02","error":"Gone"}')),
    (asked("GET /due"), due(1, day="2025-02-28"), "2025-02-28"),
]

# The same office with the policy of the first table in the place of that one: its rules count on each day.
UNDATED = [
    (body("PUT /classes/y2", '{"years":2}', caller="carl"), CLERK, "2024-03-01"),
    (body("PUT /classes/y2", '{"years":2}', caller="carl"), CLERK, "2024-03-03"),
    (body(HOLD, '{"class":"y1","matter":"Case 4"}'), (201, '{"hold":4}'), "2024-03-02"),
    (asked("DELETE /holds/3", caller="carl"), (200, '{"hold":3,"released":"9799-12-31"}'), "9799-12-31"),
    (asked("GET /deposits/1/holds"), (200, '{"holds":[%s]}' % told_hold(4, "class", "2024-03-02"))),
    (asked("DELETE /deposits/1"), (409, '{"error":"Held","hold":4}'), "2025-02-28"),
    (asked("DELETE /holds/4", caller="eve"), (200, '{"hold":4,"released":"2025-02-28"}'), "2025-02-28"),
    (asked("DELETE /deposits/1"), (200, '{"day":"2025-02-28","destroyed":1}'), "2025-02-28"),
]


def record(day, request):
    """The record of a request on that day."""
    return requests.record(day, request if isinstance(request, bytes) else request.encode())


def answer(status, text, fields=""):
    """The record of an answer."""
    data = text if isinstance(text, bytes) else text.encode()
    kind = BYTES if isinstance(text, bytes) else "application/json"
    head = (
        f"HTTP/1.1 {status} {STATUS[status]}\r\nContent-Type: {kind}\r\nContent-Length: {len(data)}\r\n"
        f"{fields}Connection: close\r\n\r\n"
    )
    return requests.answer_record(head.encode() + data)


def rows(*tables):
    """Each request with its day, and its answer."""
    for table in tables or (HEADS, CALLERS, PATHS, METHODS, QUERIES, BODIES, SESSION, LISTS, DEPOSITS, YEARS, HOLDS):
        for request, given, *day in table:
            yield record(day[0] if day else DAY, request), answer(*given)


def run_program(installed, store=":memory:", *tables):
    """Ends where the program doesn't answer each request as its row has it."""
    pairs = list(rows(*tables))
    done = replay(DEPOT, store, [request for request, _ in pairs], "--policy", installed)
    at = 0
    for place, (request, wanted) in enumerate(pairs, 1):
        if not done.stdout.startswith(wanted, at):
            wanted, found = shown(wanted, done.stdout[at : at + len(wanted) + 200])
            fail(f"request {place}, {request[:200]!r}: {wanted} is wanted, and this came: {found}; {done.stderr!r}")
        at += len(wanted)
    if (len(done.stdout), done.stderr, done.returncode) != (at, b"", 0):
        fail(
            f"the program ended with {done.returncode}, {done.stderr!r} and {len(done.stdout) - at} bytes after its "
            "answers"
        )


def run_dated():
    """Has the program answer on days, in one store: by the policy with days, then by the one without."""
    with tempfile.TemporaryDirectory() as folder:
        dated = pathlib.Path(folder, "policy.toml")
        dated.write_text(DATED_POLICY, encoding="utf-8")
        run_program(dated, f"{folder}/office.db", DATED)
        run_program(CRATE / "data/policy.toml", f"{folder}/office.db", UNDATED)
    return len(DATED) + len(UNDATED)


def lines_of_cases():
    """The lines that `trial_office` prints of its cases, before the records of answers."""
    lines, _, _ = (CRATE / "stdout").read_bytes().partition(b"ANS ")
    return lines


def main():
    files = {
        CRATE / "stdin": b"".join(asked for asked, _ in rows()),
        CRATE / "stdout": lines_of_cases() + b"".join(given for _, given in rows()),
        CRATE / "data/policy.toml": POLICY.encode(),
    }
    if sys.argv[1:] == ["write"]:
        for path, data in files.items():
            path.parent.mkdir(exist_ok=True)
            path.write_bytes(data)
    elif sys.argv[1:]:
        fail("words: write, or none")
    for path, data in files.items():
        if not path.is_file() or path.read_bytes() != data:
            fail(f"{path.relative_to(TOP)} isn't as the tables have it")
    if is_there(DEPOT):
        run_program(CRATE / "data/policy.toml")
        said = f"and the built program answers them to the byte, and {run_dated()} more by rules with days"
    elif "DEPOT" in os.environ:
        fail(f"{DEPOT} isn't there")
    else:
        said = "but the program isn't built, and wasn't asked"
    print(f"{sum(1 for _ in rows())} requests and their answers, as crates/trial_office has them, {said}")


if __name__ == "__main__":
    main()
