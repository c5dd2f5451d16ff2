#!/usr/bin/env python3
"""Has the built programs run while one allocation is refused: the first, then the second, until a run has no more of
them. `cc` compiles a small library whose `malloc`, `calloc` and `realloc` come before those of the C library
(`LD_PRELOAD`). Each run has to end by itself, and to print nothing wrong. The groups of runs:

- `desk`: `depot replay` in memory of two sessions of records, each sent twice in a row. The second session has a policy
  with days, and a hold on a class. A request has the answer that it has with all memory, or 503; then nothing was done,
  and the next time it has that answer. Or the program ends with `memory`, after the answers until then.
- `ask`: `depot ask` over a file, with single requests: a deposit under a hold on its class, a class that is revised
  over two deposits, a download, a due list, a hold on a class, the list of a deposit's holds, a release, and a request
  that the desk refuses. The answer is the one with all memory, or 503, or the program ends with `memory`. Then the same
  request is sent to the same file with all memory. If the first was answered, the answer is that to a second request;
  if it was refused with 503 for lack of memory, it is that to a first one; otherwise it is one of these two.
- `policy`: `depot policy` installs a policy with days in the place of another. Afterwards the file has the rows from
  before or the new ones, and the next command with all memory installs the policy.
- `upgrade`: `depot ask` over files with the tables of each older version. Afterwards a file has the rows from before
  or the upgraded ones, and the next command with all memory upgrades it.
- `serve`: `depot serve` over a file, with four connections, of which at most one gets no answer. Standard error has the
  lines of those that were answered 503, of the first of their kind that succeeds again, and of the end. Or the program
  ends with `memory`, whose line follows them. Connections that the system still takes then get no answer either. What
  was answered is stored, and no change is that came after the first connection without an answer, or was refused.
- `hear`: `trial_office hear`, with a deposit that `read_request` reads: all of its bag, or nothing.
- `bags`, `office`, `tables`, `stored`: the cases of `crates/trial_office`, each with the result that was worked out, or
  with lack of memory.

Arguments: groups, by default all; `GROUP FIRST LAST` refuses the allocations from the first to the last alone. DEPOT
and TRIAL_OFFICE name other programs than the built ones in `crates/depot/out` and `crates/trial_office/out`.
"""
import contextlib
import os
import pathlib
import shutil
import sqlite3
import subprocess
import sys
import tempfile

from needs import needs
from shared import stores
from shared.comparing import fail
from shared.days import FIRST, LAST
from shared.offices import answer_to, make_office
from shared.places import DEPOT, EXAMPLE_BAG, TRIAL_OFFICE, POLICY, needs_built
from shared.policies import allow, deny, policy as policy_text
from shared.requests import deposit_target, record, records_in, request

# The archivist destroys nothing of the collection `maps` before 28 February 2025.
DATED_POLICY = policy_text(
    {"anna": "archivist"},
    deny("archivist", "dispose", "maps", first="2024-03-01", last="2025-02-27"),
    allow("archivist", "*"),
)
# More allocations than a run has.
MOST = 100_000
EARLY, LATE = "2024-03-01", "2025-02-28"

# Refuses the allocation whose number the environment has, counted from the start of the program, and says
# that there was one by a byte on the descriptor that the environment has.
LIBRARY = r"""
#include <stdlib.h>
#include <unistd.h>
extern void *__libc_malloc(size_t);
extern void *__libc_calloc(size_t, size_t);
extern void *__libc_realloc(void *, size_t);
static long left;
static int told;
__attribute__((constructor)) static void begin(void) {
    left = atol(getenv("REFUSED"));
    told = atoi(getenv("TOLD"));
}
static int refused(void) { return left > 0 && --left == 0 && write(told, "x", 1) == 1; }
void *malloc(size_t size) { return refused() ? NULL : __libc_malloc(size); }
void *calloc(size_t count, size_t size) { return refused() ? NULL : __libc_calloc(count, size); }
void *realloc(void *old, size_t size) { return refused() ? NULL : __libc_realloc(old, size); }
"""


def compiled(folder):
    """The library, compiled."""
    needs("cc=gcc", "/usr/include/stdlib.h=libc6-dev")
    source, made = folder / "refusing.c", folder / "refusing.so"
    source.write_text(LIBRARY)
    subprocess.run(["cc", "-shared", "-fPIC", "-O1", "-o", made, source], check=True)
    return made


def refusing(library, number, writer):
    """The environment of a program while this allocation is refused."""
    return {"LD_PRELOAD": str(library), "REFUSED": str(number), "TOLD": str(writer), "PATH": "/usr/bin:/bin"}


def run(library, number, words, given):
    """How the program ends while this allocation is refused, or none where the number is 0, and whether there was
    one."""
    reader, writer = os.pipe()
    env = refusing(library, number, writer)
    words = list(map(str, words))
    ended = subprocess.run(words, input=given, capture_output=True, pass_fds=[writer], timeout=60, env=env)
    os.close(writer)
    with os.fdopen(reader, "rb") as file:
        return ended, bool(file.read())


def asked(day, method, target, body=b"", caller="anna"):
    """The record of a request."""
    return record(day, request(method, target, body, caller))


def deposit(number):
    """The target of the deposit of this number."""
    return deposit_target(f"A-{number}")


def session():
    """Records of every route, of refusals of the office and of the desk; a class is revised over two deposits of one
    bag, and one of them destroyed. What follows a hold doesn't tell whether it was placed once or twice."""
    bag = EXAMPLE_BAG.read_bytes()
    return [
        asked(EARLY, "PUT", "/classes/y1", b'{"years":1}'),
        asked(EARLY, "PUT", "/collections/maps"),
        asked(EARLY, "POST", deposit(1), bag),
        asked(EARLY, "POST", deposit(2), bag[:-4]),
        asked(EARLY, "POST", deposit(3), bag),
        asked(EARLY, "PUT", "/classes/y1", b'{"years":0}'),
        asked(EARLY, "GET", "/due"),
        asked(EARLY, "DELETE", "/deposits/2"),
        asked(EARLY, "PUT", "/classes/y1", b'{"years":1}'),
        asked(EARLY, "GET", "/deposits?collection=maps&class=y1"),
        asked(EARLY, "GET", "/deposits/1"),
        asked(EARLY, "GET", "/deposits/1/bag"),
        asked(EARLY, "GET", "/deposits/1/files/data/%61"),
        asked(EARLY, "GET", "/deposits/1/audit"),
        asked(EARLY, "GET", "/deposits/1/bag", caller="carl"),
        asked(EARLY, "GET", "/nothing"),
        asked(EARLY, "PUT", "/deposits"),
        asked(EARLY, "GET", "/deposits/1/holds"),
        asked(EARLY, "POST", "/holds", b'{"collection":"maps","matter":"Case 7"}'),
        asked(LATE, "GET", "/due"),
        asked(LATE, "DELETE", "/deposits/1"),
        asked(LATE, "DELETE", "/holds/1"),
    ]


def session_of_days():
    """Records under `DATED_POLICY`: a disposal and a due list on a day on which a rule denies it and on one on which it
    doesn't, a hold on the class, under which another deposit comes, and its release."""
    bag = EXAMPLE_BAG.read_bytes()
    return [
        asked(EARLY, "PUT", "/classes/y1", b'{"years":0}'),
        asked(EARLY, "PUT", "/collections/maps"),
        asked(EARLY, "POST", deposit(1), bag),
        asked(EARLY, "DELETE", "/deposits/1"),
        asked(EARLY, "GET", "/due"),
        asked(LATE, "GET", "/due"),
        asked(EARLY, "POST", "/holds", b'{"class":"y1","matter":"Case 7"}'),
        asked(EARLY, "POST", deposit(2), bag),
        asked(LATE, "GET", "/due"),
        asked(LATE, "DELETE", "/deposits/2"),
        asked(LATE, "DELETE", "/holds/1"),
    ]


def is_wanting(answer):
    """Whether the office or the desk answers that memory or the store failed."""
    return answer.startswith(b"HTTP/1.1 503 ") and answer.endswith((b'{"error":"Memory"}', b'{"error":"Store"}'))


def fault_of_replay(ended, wanted):
    """What is wrong with the end of a replay, if anything is: `wanted` has the two answers of each record."""
    found, rest = records_in(ended.stdout)
    wants, has_store_failed = 0, False
    for place in range(0, len(found), 2):
        times = 0
        for answer in found[place:place + 2]:
            if is_wanting(answer):
                wants += not has_store_failed
                has_store_failed |= answer.endswith(b'{"error":"Store"}')
            elif answer in wanted[place // 2][times:times + 1]:
                times += 1
            else:
                return f"request {place // 2 + 1} is answered {answer!r}"
    if wants > 1:
        return f"{wants} requests wanted memory"
    if ended.returncode == 0:
        return None if len(found) == 2 * len(wanted) and not rest else "answers are missing"
    if ended.returncode == 3 and ended.stderr.split(b"\n")[0] in (b"memory", b"device"):
        return None
    return f"it ended with {ended.returncode} and {ended.stderr!r}"


def replays(library, first, last, policy, records):
    """How many replays of the records under the policy, with one allocation refused in turn, ended in which way."""
    given = b"".join(it * 2 for it in records)
    words = [DEPOT, "replay", "--policy", policy, ":memory:"]
    plain = run(library, 0, words, given)[0]
    found, rest = records_in(plain.stdout)
    if plain.returncode != 0 or rest or len(found) != 2 * len(records):
        fail(f"desk: with all memory it ends with {plain.returncode}, {plain.stderr!r}, {len(found)} answers")
    wanted = list(zip(found[::2], found[1::2]))
    tally = {"ended": 0, "answered": 0, "did without": 0}
    for number in range(first, last + 1):
        ended, was_refused = run(library, number, words, given)
        if not was_refused:
            break
        why = fault_of_replay(ended, wanted)
        if why:
            fail(f"desk, allocation {number}: {why}")
        wants = any(is_wanting(it) for it in records_in(ended.stdout)[0])
        tally["ended" if ended.returncode else "answered" if wants else "did without"] += 1
    said = (
        f"{tally['answered']} answered with 503, {tally['ended']} ended the program, "
        f"{tally['did without']} made no difference"
    )
    print(f"desk: {len(wanted)} requests, {sum(tally.values())} allocations refused: {said}", flush=True)
    return sum(tally.values())


def desk(library, first, last):
    """Two sessions over the desk."""
    with tempfile.TemporaryDirectory() as room:
        dated = pathlib.Path(room, "dated.toml")
        dated.write_text(DATED_POLICY)
        refused = replays(library, first, last, POLICY, session())
        return refused + replays(library, first, last, dated, session_of_days())


def is_failure(ended):
    """Whether the program ended for lack of memory, as it or the store reported it."""
    return ended.returncode == 3 and ended.stderr.split(b"\n")[0] in (b"memory", b"device", b"store Q4")


def fault_of_asking(ended, again, wanted):
    """What is wrong with the end of `ask`, or of the same request asked again, if anything is."""
    # (what was answered is done, what lacked memory isn't, and after a failure of the store nothing is known)
    wants = wanted
    if ended.returncode == 0 and ended.stdout == wanted[0]:
        wants = wanted[1:]
    elif ended.returncode == 0:
        if not is_wanting(ended.stdout):
            return f"it answers {ended.stdout!r}"
        wants = wanted[:1] if ended.stdout.endswith(b'{"error":"Memory"}') else wanted
    elif not is_failure(ended):
        return f"it ended with {ended.returncode} and {ended.stderr!r}"
    elif not wanted[0].startswith(ended.stdout) and not is_wanting(ended.stdout):
        return f"it wrote {ended.stdout!r}"
    if again.returncode != 0 or again.stdout not in wants:
        return f"asked again it ended with {again.returncode} and answers {again.stdout!r}"
    return None


def ask(library, first, last):
    """Single requests over a file."""
    bag = EXAMPLE_BAG.read_bytes()
    hold = request("POST", "/holds", b'{"class":"y1","matter":"Case 7"}')
    given = [
        request("POST", deposit(3), bag),
        request("PUT", "/classes/y1", b'{"years":0}'),
        request("GET", "/deposits/1/bag"),
        request("GET", "/due"),
        hold,
        request("GET", "/deposits/1/holds"),
        request("DELETE", "/holds/1"),
        request("GET", "/nothing"),
    ]
    with tempfile.TemporaryDirectory() as room:
        kept = pathlib.Path(room, "kept")
        kept.mkdir()
        make_office(DEPOT, kept / "office.db")
        definitions = request("PUT", "/classes/y1", b'{"years":1}'), request("PUT", "/collections/maps")
        for text in (*definitions, request("POST", deposit(1), bag), request("POST", deposit(2), bag), hold):
            words = [DEPOT, "ask", kept / "office.db", EARLY]
            subprocess.run(words, input=text, check=True, capture_output=True, timeout=60)
        refused = sum(asks(library, first, last, kept, place, text) for place, text in enumerate(given, 1))
    print(f"ask: {len(given)} requests, {refused} allocations refused", flush=True)
    return refused


def asks(library, first, last, kept, place, text):
    """How many allocations of a request to a copy of the file are refused in turn."""
    used = kept.with_name("used")

    def asked_with(number):
        return run(library, number, [DEPOT, "ask", used / "office.db", EARLY], text)

    shutil.copytree(kept, used)
    wanted = [asked_with(0)[0].stdout for _ in range(2)]
    shutil.rmtree(used)
    refused = 0
    for number in range(first, last + 1):
        shutil.copytree(kept, used)
        ended, was_refused = asked_with(number)
        again = asked_with(0)[0] if was_refused else None
        shutil.rmtree(used)
        if not was_refused:
            break
        why = fault_of_asking(ended, again, wanted)
        if why:
            fail(f"ask, request {place}, allocation {number}: {why}")
        refused += 1
    return refused


def served(library, number, store, texts):
    """How `serve` ends while this allocation is refused, the answers to these requests, one for each connection until
    it no longer listens, and whether there was such an allocation."""
    reader, writer = os.pipe()
    words = [DEPOT, "serve", "--port", 0, "--count", len(texts), store, EARLY]
    server = subprocess.Popen(
        list(map(str, words)), stdin=subprocess.DEVNULL, stdout=subprocess.PIPE, stderr=subprocess.PIPE,
        pass_fds=[writer], env=refusing(library, number, writer))
    os.close(writer)
    answered = []
    listening = server.stdout.readline()
    if listening.startswith(b"listening "):
        for text in texts:
            try:
                answered.append(answer_to(int(listening.split()[1]), text, 60))
            except ConnectionResetError:
                answered.append(b"")
            except ConnectionRefusedError:
                break
    _, told = server.communicate(timeout=60)
    with os.fdopen(reader, "rb") as file:
        return (server.returncode, told.decode()), answered, bool(file.read())


def lines_of(kinds, answered):
    """The lines that `serve` writes to standard error after connections of these kinds with these answers. (A
    connection whose answer was lost was not the one after a failure, since one allocation alone is refused.)"""
    lines, rows, last = [], {}, {}
    again = {"change": "a change was accepted again", "reading": "a reading succeeded again"}
    for number, (kind, answer) in enumerate(zip(kinds, answered), 1):
        count = rows.get(kind, 0)
        if is_wanting(answer):
            rows[kind], last[kind] = count + 1, "Memory" if answer.endswith(b'{"error":"Memory"}') else "Store"
            if count + 1 in (1, 10, 100):
                lines.append(f"depot: connection {number}: a {kind} was answered {last[kind]}, {count + 1} in a row")
        elif answer.startswith(b"HTTP/1.1 200 ") and count:
            lines.append(
                f"depot: connection {number}: {again[kind]}, after {count} in a row, the last answered {last[kind]}"
            )
            rows[kind] = 0
    return lines


def is_served_so(status, said, kinds, answered):
    """Whether this is how `serve` ends, and what it writes, after connections of these kinds with these answers."""
    lines, told = lines_of(kinds, answered), said.splitlines()
    end = f"depot: serving ended after the connections that were asked for: {len(kinds)}"
    rest = told[len(lines):]
    lost = [at for at, answer in enumerate(answered) if not answer]
    # Once the serving has failed, the system still takes connections until the process has ended.
    are_last = status == 3 and lost == list(range(len(answered)))[-len(lost):]
    if told[:len(lines)] != lines or len(lost) > 1 and not are_last:
        return False
    if status == 0:
        return len(answered) == len(kinds) and rest == [end]
    return status == 3 and [it for it in rest if it != end][:1] in (["memory"], ["device"], ["store Q4"])


def is_stored_so(store, names, answered):
    """Whether these collections, or none where the request defines none, are stored as they were answered. The first
    connection without an answer may have been served."""
    with contextlib.closing(sqlite3.connect(store)) as connection:
        stored = {name for name, in connection.execute("SELECT name FROM collection")}
    first_lost = answered.index(b"") if b"" in answered else len(answered)
    return all(
        (name in stored) == answer.startswith(b"HTTP/1.1 200 ")
        for at, (name, answer) in enumerate(zip(names, answered))
        if name and at != first_lost
    )


def serve(library, first, last):
    """Connections that change something and that read, in turn."""
    kinds = ["change", "reading"] * 2
    lines = "PUT /collections/a", "GET /due", "PUT /collections/b", "GET /deposits"
    texts = [request(*line.split(" ")) for line in lines]
    refused = told = 0
    with tempfile.TemporaryDirectory() as room:
        kept, used = pathlib.Path(room, "kept"), pathlib.Path(room, "used")
        kept.mkdir()
        make_office(DEPOT, kept / "office.db")
        for number in [0, *range(first, last + 1)]:
            shutil.copytree(kept, used)
            (status, said), answered, was_refused = served(library, number, used / "office.db", texts)
            is_stored = is_stored_so(used / "office.db", ["a", None, "b", None], answered)
            shutil.rmtree(used)
            if number and not was_refused:
                break
            if not is_stored or not is_served_so(status, said, kinds, answered) or not (number or status == 0):
                fail(f"serve, allocation {number}: it ended with {status}, {answered!r}, {said!r}")
            refused += was_refused
            told += any(map(is_wanting, answered))
    print(f"serve: {len(texts)} connections, {refused} allocations refused, {told} of them told of", flush=True)
    if first == 1 and last == MOST and not told:
        fail("serve: no request was answered 503")
    return refused


def sweep(library, first, last, kept, wanted, words, given):
    """How many allocations of a command on a copy of the store are refused in turn, where each time the schema and the
    rows are those from before or those that are wanted, and the latter once it is given again with all memory."""
    before = stores.rows(str(kept / "office.db"))
    used = kept.with_name("used")
    store = str(used / "office.db")

    def given_with(number):
        ended, was_refused = run(library, number, [DEPOT, words[0], store, *words[1:]], given)
        return ended, was_refused, stores.rows(store)

    def other(found):
        return stores.differs(found[1], wanted[1]) or f"the schema {found[0]}"

    shutil.copytree(kept, used)
    plain, _, found = given_with(0)
    shutil.rmtree(used)
    if plain.returncode != 0 or found != wanted:
        why = other(found)
        fail(f"{words[0]}: with all memory it ends with {plain.returncode}, {plain.stderr!r}, {why}")
    refused = 0
    for number in range(first, last + 1):
        shutil.copytree(kept, used)
        ended, was_refused, found = given_with(number)
        again, _, later = given_with(0)
        shutil.rmtree(used)
        if not was_refused:
            break
        is_done = ended.returncode == 0 and (ended.stdout == plain.stdout or is_wanting(ended.stdout))
        if not is_done and not is_failure(ended):
            fail(
                f"{words[0]}, allocation {number}: it ended with {ended.returncode}, {ended.stdout!r} {ended.stderr!r}"
            )
        if found != wanted and (is_done or found != before):
            fail(f"{words[0]}, allocation {number}: {other(found)}")
        if (again.returncode, again.stdout) != (0, plain.stdout) or later != wanted:
            why = other(later)
            fail(f"{words[0]}, allocation {number}, given again: {again.returncode}, {again.stdout!r}, {why}")
        refused += 1
    return refused


def policy(library, first, last):
    """An install of a policy with days in a small store."""
    with tempfile.TemporaryDirectory() as room:
        kept, dated = pathlib.Path(room, "kept"), pathlib.Path(room, "dated.toml")
        kept.mkdir()
        dated.write_text(DATED_POLICY)
        make_office(DEPOT, kept / "office.db")
        schema, found = stores.rows(str(kept / "office.db"))
        wanted = dict(found)
        wanted["caller"] = [(1, "anna", "archivist")]
        wanted["rule_5"] = [
            (1, 1, 0, "archivist", "dispose", "maps", "*", 19783, 20146),
            (2, 2, 1, "archivist", "*", "*", "*", FIRST, LAST),
        ]
        refused = sweep(library, first, last, kept, (schema, wanted), ["policy", dated], b"")
    print(f"policy: one with days, {refused} allocations refused", flush=True)
    return refused


def upgrade(library, first, last):
    """An upgrade of a small store of each version, and a request after it."""
    refused = 0
    with tempfile.TemporaryDirectory() as room:
        fresh = pathlib.Path(room, "fresh.db")
        make_office(DEPOT, fresh)
        schema = stores.rows(str(fresh))[0]
        versions = range(3, stores.VERSION)
        for version in versions:
            kept = pathlib.Path(room, f"version-{version}")
            kept.mkdir()
            stores.make(kept / "office.db", version, deposits=4, each=2, rules=3)
            wanted = stores.upgraded(version, stores.rows(str(kept / "office.db"))[1])
            refused += sweep(library, first, last, kept, (schema, wanted), ["ask", EARLY], request("GET", "/due"))
    print(f"upgrade: from {len(versions)} versions, {refused} allocations refused", flush=True)
    return refused


def hear(library, first, last):
    """A deposit that is heard alone, by `read_request`."""
    bag = EXAMPLE_BAG.read_bytes()
    given = request("POST", deposit(1), bag)
    words = [TRIAL_OFFICE, "hear"]
    heard = [str(len(bag)).encode()]
    if run(library, 0, words, given)[0].stdout.split()[:1] != heard:
        fail("hear: with all memory the bag isn't heard")
    refused = unheard = 0
    for number in range(first, last + 1):
        ended, was_refused = run(library, number, words, given)
        if not was_refused:
            break
        is_unheard = ended.returncode == 1 and not ended.stdout and b"no request is heard" in ended.stderr
        # (its words, or what it measures)
        is_unsaid = ended.returncode == 1 and not ended.stdout and ended.stderr.endswith(b"out of memory\n")
        if not (is_unheard or is_unsaid or ended.returncode == 0 and ended.stdout.split()[:1] == heard):
            fail(f"hear, allocation {number}: it ended with {ended.returncode}, {ended.stdout!r} {ended.stderr!r}")
        refused += 1
        unheard += is_unheard
    print(f"hear: {refused} allocations refused, {unheard} of them left the request unheard", flush=True)
    return refused


def cases(group):
    """The trial of a group of cases."""

    def trial(library, first, last):
        words, given = [TRIAL_OFFICE], group.encode()
        plain = run(library, 0, words, given)[0]
        count = plain.stdout.count(b": as worked out\n")
        if plain.returncode != 0 or plain.stdout.count(b"\n") != count:
            fail(f"{group}: with all memory it ends with {plain.returncode} and {plain.stdout!r}")
        refused = without = 0
        for number in range(first, last + 1):
            ended, was_refused = run(library, number, words, given)
            if not was_refused:
                break
            lines = [it for it in ended.stdout.split(b"\n") if it and it != b"a database: lack of memory"]
            wants = sum(it.endswith(b": lack of memory") for it in lines)
            fits = all(it.endswith((b": as worked out", b": lack of memory")) for it in lines)
            if ended.returncode != 0 or not fits or len(lines) != count:
                fail(
                    f"{group}, allocation {number}: it ended with {ended.returncode}, {ended.stdout!r} {ended.stderr!r}"
                )
            refused += 1
            without += wants == 0 and len(lines) == ended.stdout.count(b"\n")
        print(
            f"{group}: {count} cases, {refused} allocations refused, {without} of them made no difference", flush=True
        )
        return refused

    return trial


# The groups of each program. Each gives how many allocations were refused.
OF_DEPOT = {"desk": desk, "ask": ask, "serve": serve, "policy": policy, "upgrade": upgrade}
OF_TRIAL_OFFICE = {"hear": hear, **{it: cases(it) for it in ("bags", "office", "tables", "stored")}}
GROUPS = OF_DEPOT | OF_TRIAL_OFFICE


def main():
    words = sys.argv[1:]
    first, last = 1, MOST
    if len(words) == 3 and words[1].isdigit() and words[2].isdigit():
        first, last = int(words[1]), int(words[2])
        words = words[:1]
    names = words or list(GROUPS)
    if any(it not in GROUPS for it in names):
        fail("the groups are " + ", ".join(GROUPS))
    needs_built(*{DEPOT if name in OF_DEPOT else TRIAL_OFFICE for name in names})
    with tempfile.TemporaryDirectory() as folder:
        library = compiled(pathlib.Path(folder))
        refused = sum(GROUPS[name](library, first, last) for name in names)
    print(
        f"memory: {refused} allocations refused in turn in {', '.join(names)}: nothing but lack of memory, "
        "and nothing lost"
    )


if __name__ == "__main__":
    main()
