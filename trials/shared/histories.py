"""The history of an office: its deposits, holds, releases and disposals, each of which an office accepts, and what it
answers."""
import collections
import json

from shared.comparing import fail
from shared.days import date, due_day

# The days of the history: deposits come from the first on, holds from the second, the last disposals from the third.
DEPOSITED, HELD, DESTROYED = 19500, 19600, 19710
CALLERS = {"anna": "archivist", "carl": "clerk"}
YEARS = {f"y{n}": n - 1 for n in range(10)}
COLLECTIONS = [f"c{n}" for n in range(20)]
# What a hold may name.
NAMED = "deposit", "collection", "class"


def rules_of(count):
    """This number of rules. The last one allows the archivist everything."""
    rules = [(n, n % 2, "clerk", "list", f"c{n % 20}", f"y{n % 10}") for n in range(1, count)]
    return rules + [(count, 1, "archivist", "*", "*", "*")]


def targets(version, deposits):
    """What a hold of that version may name. Every other collection, and every other class, is never held."""
    kinds = [lambda k: (1 + k % deposits, None, None), lambda k: (None, f"c{2 * k % 20}", None)]
    if version == 4:
        kinds.append(lambda k: (None, None, f"y{2 * k % 10}"))
    return kinds


def holds_of(version, deposits, each):
    """This number of holds of each kind, in the order of their days. A third of them is released."""
    kinds = targets(version, deposits)
    holds = []
    for k in range(each):
        placed = HELD + 100 * k // each
        for kind in kinds:
            released = placed + k % 7 if k % 3 == 0 else None
            holds.append((len(holds) + 1, *kind(k), f"Case {k}", placed, released))
    return holds


def answer(status, said):
    """The bytes of an answer: with a file, or with JSON."""
    body = said if isinstance(said, str) else json.dumps(said, separators=(",", ":"), sort_keys=True)
    kind = "application/octet-stream" if isinstance(said, str) else "application/json"
    head = f"HTTP/1.1 {status}\r\nContent-Type: {kind}\r\nContent-Length: {len(body)}\r\nConnection: close\r\n\r\n"
    return (head + body).encode()


def refused(status, error, **more):
    return answer(status, {"error": error, **more})


class Office:
    """The deposits and the holds of an office, which answers what archivists ask of it."""

    def __init__(self):
        self.deposits = []
        self.holds = []
        # by what they name
        self.live = collections.defaultdict(set)

    def covering(self, it):
        """The numbers of the live holds over a deposit."""
        on = (it["deposit"], None, None), (None, it["collection"], None), (None, None, it["class"])
        return sorted(set().union(*(self.live[target] for target in on)))

    def deposit(self, day, collection, class_, accession, closed):
        number = len(self.deposits) + 1
        place = {"deposit": number, "accession": accession, "collection": collection, "class": class_}
        days = {"closed": closed, "deposited": day, "due": due_day(closed, YEARS[class_]), "gone": None}
        self.deposits.append(place | days)
        return answer("201 Created", {"deposit": number})

    def hold(self, day, target, matter):
        gone = self.deposits[target[0] - 1]["gone"] if target[0] else None
        if gone is not None:
            return refused("410 Gone", "Gone", day=date(gone))
        self.holds.append(dict(target=target, matter=matter, placed=day, released=None))
        self.live[target].add(len(self.holds))
        return answer("201 Created", {"hold": len(self.holds)})

    def release(self, day, number):
        it = self.holds[number - 1]
        if it["released"] is not None:
            return refused("409 Conflict", "Released", day=date(it["released"]))
        it["released"] = day
        self.live[it["target"]].remove(number)
        return answer("200 OK", {"hold": number, "released": date(day)})

    def is_due(self, day, it):
        return it["gone"] is None and it["due"] is not None and it["due"] <= day and not self.covering(it)

    def dispose(self, day, number):
        it = self.deposits[number - 1]
        if it["gone"] is not None:
            return refused("410 Gone", "Gone", day=date(it["gone"]))
        if self.covering(it):
            return refused("409 Conflict", "Held", hold=self.covering(it)[0])
        if it["due"] is None or it["due"] > day:
            return refused("409 Conflict", "NotDue", due="permanent" if it["due"] is None else date(it["due"]))
        it["gone"] = day
        return answer("200 OK", {"day": date(day), "destroyed": number})

    def told(self, it):
        said = {name: it[name] for name in ("deposit", "accession", "collection", "class")}
        days = {"closed": date(it["closed"]), "deposited": date(it["deposited"])}
        return said | days | {"bytes": 3, "files": 1, "due": "permanent" if it["due"] is None else date(it["due"])}

    def ask(self, number, tell):
        """The answer to a question about a deposit: what `tell` says of it, or that it is gone."""
        it = self.deposits[number - 1]
        if it["gone"] is not None:
            return refused("410 Gone", "Gone", day=date(it["gone"]))
        return answer("200 OK", tell(it))

    def told_holds(self, it):
        said = []
        for number in self.covering(it):
            on = self.holds[number - 1]
            kind = next(name for name, value in zip(NAMED, on["target"]) if value)
            said.append({"hold": number, "matter": on["matter"], "on": kind, "placed": date(on["placed"])})
        return {"holds": said}

    def listed(self, is_told):
        kept = [it for it in self.deposits if it["gone"] is None]
        return answer("200 OK", {"deposits": [self.told(it) for it in kept if is_told(it)]})

    def due(self, day):
        due = [it["deposit"] for it in self.deposits if self.is_due(day, it)]
        return answer("200 OK", {"day": date(day), "deposits": due})

    def rows_of_deposits(self):
        names = "deposit", "accession", "collection", "class", "closed", "deposited"
        return [
            (*(it[name] for name in names), 1, 3, it["gone"], it["due"], len(self.covering(it)))
            for it in self.deposits
        ]

    def rows_of_holds(self):
        return [(n, *it["target"], it["matter"], it["placed"], it["released"]) for n, it in enumerate(self.holds, 1)]


def accepted(said):
    """Fails where a change of the history is refused."""
    if not said.startswith((b"HTTP/1.1 200 ", b"HTTP/1.1 201 ")):
        fail(f"the history has a change that is refused: {said!r}")


def closing_day(number):
    """A day before the first deposit, within ten years; of some deposits 29 February."""
    if number % 10 == 7:
        return 16860 if number % 20 == 7 else 18321
    return DEPOSITED - 37 * number % 3600


def history(version, deposits, each):
    """The office after its deposits, its holds, their releases, and the disposals of what is due and held by nothing:
    before the first hold of deposits that none names, and in the end of those that never were held or are no more."""
    office = Office()
    for n in range(1, deposits + 1):
        day = DEPOSITED + 100 * (n - 1) // deposits
        accepted(office.deposit(day, f"c{n % 20}", f"y{(n + n // 20) % 10}", f"A-{n}", closing_day(n)))
    holds = holds_of(version, deposits, each)
    named = {it[1] for it in holds}
    for it in office.deposits[10::11]:
        if it["deposit"] not in named and office.is_due(HELD, it):
            accepted(office.dispose(HELD, it["deposit"]))
    events = [(it[5], False, it) for it in holds] + [(it[6], True, it) for it in holds if it[6] is not None]
    for day, is_release, it in sorted(events, key=lambda event: (*event[:2], event[2][0])):
        accepted(office.release(day, it[0]) if is_release else office.hold(day, it[1:4], it[4]))
    for it in office.deposits[::3]:
        day = DESTROYED + 50 * it["deposit"] // deposits
        if office.is_due(day, it):
            accepted(office.dispose(day, it["deposit"]))
    if office.rows_of_holds() != holds:
        fail("the holds have other numbers")
    return office
