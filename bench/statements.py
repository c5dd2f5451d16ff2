"""The SQL statements that the office makes for a request, in their order, through Python's sqlite3."""
import itertools
import time

from trial_office import CONTENT_ID, DEPOSITS, DUE, FILES, HOLDS, PUT_HOLD, SET_DUES
from trial_office import due_day, intact, opened, put_files, put_row
from shared.comparing import fail
from shared.days import FIRST, LAST
from shared.stores import NEWEST

DEPOSIT = f"SELECT number, accession, collection, class, closed, deposited, files, bytes, gone FROM {DEPOSITS}"
DEPOSITS_AND_DUES = DEPOSIT.replace("gone", "gone, due, holds") + " ORDER BY number"
RULE = f"SELECT place, effect, role, action, collection, class, first, last FROM {NEWEST['rule']}"
RULES = RULE + " ORDER BY place"
MATCH_RULE = RULE + (
    " WHERE collection IN ('*', ?3) AND class IN ('*', ?4) AND role IN ('*', ?1) AND action IN ('*', ?2)"
    " AND first <= ?5 AND last >= ?5 ORDER BY place LIMIT 1"
)
DUE_ROW = f"SELECT number, due, holds FROM {DEPOSITS} WHERE number = ?1"
DUE_ROWS = (
    f"SELECT number, collection, class, due FROM {DEPOSITS} WHERE gone IS NULL AND holds = 0 AND due >= ?2"
    " AND due <= ?1 ORDER BY number"
)
ADD_HOLDS = (
    f"UPDATE {DEPOSITS} SET holds = CASE WHEN typeof(holds + ?2) = 'integer' THEN holds + ?2 END"
    " WHERE collection = ?1"
)
HOLD = f"SELECT number, deposit, collection, class, matter, placed, released FROM {HOLDS}"
HOLDS_ON_DEPOSIT = (
    f"SELECT number FROM {HOLDS} WHERE deposit = ?1 AND released IS NULL ORDER BY number"
)
HOLDS_ON_COLLECTION = (
    f"SELECT number FROM {HOLDS} WHERE collection = ?2 AND deposit IS NOT ?1 AND released IS NULL"
    " ORDER BY number"
)
HOLDS_ON_CLASS = (
    f"SELECT number FROM {HOLDS} WHERE class = ?3 AND deposit IS NOT ?1 AND collection IS NOT ?2"
    " AND released IS NULL ORDER BY number"
)
RELEASED_ON_DEPOSIT = (
    f"SELECT number FROM {HOLDS} WHERE deposit = ?1 AND (released < ?2 OR released > ?3) LIMIT 1"
)
RELEASED_ON_COLLECTION = (
    f"SELECT number FROM {HOLDS} WHERE collection = ?1 AND (released < ?2 OR released > ?3) LIMIT 1"
)
RELEASED_ON_CLASS = RELEASED_ON_COLLECTION.replace("collection", "class")
LIMITS = "SELECT max_deposits, max_holds FROM office WHERE id = ?1"
# The day of each request.
DAY = 20_500
# The first day of the office, and its last.
DAYS = (FIRST, LAST)


def runs(rows):
    """The runs of deposits whose numbers follow one another, closed on one day: first number, last, and day."""
    for (_, closed), run in itertools.groupby(enumerate(rows), lambda it: (it[1][0] - it[0], it[1][1])):
        numbers = [row[0] for _, row in run]
        yield numbers[0], numbers[-1], closed


class Statements:
    """The statements of requests, by the caller `anna`."""

    def __init__(self, file):
        self.connection = opened(file)

    def rows(self, text, *values):
        return self.connection.execute(text, values).fetchall()

    def role(self):
        return self.rows("SELECT role FROM caller WHERE name = ?1", "anna")[0][0]

    def asker(self, action, collection="tax", retention_class="y10"):
        self.rows(MATCH_RULE, self.role(), action, collection, retention_class, DAY)

    def each_kind(self, role, action, pairs):
        """The rules, and the rule asked for once for each kind of pair of collection and class: names that no
        rule spells are alike."""
        spelled = [set(names) for names in zip(*(rule[4:6] for rule in self.rows(RULES)))]
        known = {}
        for pair in dict.fromkeys(pairs):
            known.setdefault(tuple(name in names and name for name, names in zip(pair, spelled)), pair)
        for pair in known.values():
            self.rows(MATCH_RULE, role, action, *pair, DAY)

    def row(self, number):
        return self.rows(DEPOSIT + " WHERE number = ?1", number)[0]

    def kept_row(self, number, action):
        """The row of a deposit, for a request that the rule of its place decides."""
        row = self.row(number)
        self.asker(action, *row[2:4])
        return row

    def years(self):
        return self.rows("SELECT years FROM class WHERE name = ?1", "y10")[0][0]

    def holds(self, number, collection, retention_class):
        self.rows(RELEASED_ON_DEPOSIT, number, *DAYS)
        self.rows(RELEASED_ON_COLLECTION, collection, *DAYS)
        self.rows(RELEASED_ON_CLASS, retention_class, *DAYS)
        on_deposit = self.rows(HOLDS_ON_DEPOSIT, number)
        on_collection = self.rows(HOLDS_ON_COLLECTION, number, collection)
        return on_deposit + on_collection + self.rows(HOLDS_ON_CLASS, number, collection, retention_class)

    def next_hold(self):
        self.rows(LIMITS, 1)
        return (self.rows(f"SELECT number FROM {HOLDS} ORDER BY number DESC LIMIT 1") or [(0,)])[0][0] + 1

    def deposit(self, number, files=FILES):
        self.rows("SELECT name FROM collection WHERE name = ?1", "tax")
        self.years()
        self.asker("deposit")
        self.rows(DEPOSIT + " WHERE accession = ?1", f"2026-{number:07}")
        self.rows(LIMITS, 1)
        self.rows(f"SELECT number FROM {DEPOSITS} ORDER BY number DESC LIMIT 1")
        put_row(self.connection, number, DUE, len(self.holds(number, "tax", "y10")))
        put_files(self.connection, number, files)

    def own_deposit(self, given):
        """A deposit of this number and these files."""
        self.deposit(*given)

    def record(self, number):
        self.kept_row(number, "record")
        self.rows(DUE_ROW, number)

    def disposal(self, number):
        collection, retention_class = self.kept_row(number, "dispose")[2:4]
        if self.rows(DUE_ROW, number)[0][2] == 0:
            fail("no hold")
        self.rows(LIMITS, 1)
        self.rows(HOLD + " WHERE number = ?1", min(self.holds(number, collection, retention_class))[0])

    def bag(self, number):
        self.kept_row(number, "download")
        for _, content in self.rows("SELECT path, content FROM file WHERE deposit = ?1 ORDER BY path", number):
            intact(self.connection, content)

    def bag_by_paths(self, number):
        """A download of a bag as the office made it until 2026-11-30: by two statements for each file."""
        self.kept_row(number, "download")
        for (path,) in self.rows("SELECT path FROM file WHERE deposit = ?1 ORDER BY path", number):
            intact(self.connection, self.rows(CONTENT_ID, number, path)[0][0])

    def list(self, _number):
        role = self.role()
        self.each_kind(role, "list", [row[2:4] for row in self.rows(DEPOSITS_AND_DUES)])

    def due(self, _number):
        role = self.role()
        self.each_kind(role, "dispose", [row[1:3] for row in self.rows(DUE_ROWS, DAY, -(2**63))])

    def hold_collection(self, _number):
        self.rows("SELECT name FROM collection WHERE name = ?1", "tax")
        self.asker("hold", retention_class="")
        self.rows(PUT_HOLD, self.next_hold(), None, "tax", None, "suit", DAY)
        self.rows(ADD_HOLDS, "tax", 1)

    def revise(self, number):
        """The class has eleven years, and then ten."""
        years = 10 + number % 2
        self.asker("class", collection="")
        self.rows("UPDATE class SET years = ?2 WHERE name = ?1", "y10", years)
        rows = self.rows(f"SELECT number, closed FROM {DEPOSITS} WHERE class = ?1 ORDER BY number", "y10")
        for first, last, closed in runs(rows):
            self.rows(SET_DUES, first, last, due_day(closed, years))


def scattered(last, count):
    """This number of numbers from 1 to `last`, scattered as the program takes them."""
    return [turn * 7919 % 2**32 % last + 1 for turn in range(1, count + 1)]


def theirs(file, name, given, end):
    """Microseconds of the statements of requests that are given these numbers."""
    statements = Statements(file)
    ask = getattr(statements, name)
    begin = time.perf_counter()
    for it in given:
        statements.connection.execute("BEGIN")
        ask(it)
        statements.connection.execute(end)
    took = time.perf_counter() - begin
    statements.connection.close()
    return took * 1e6
