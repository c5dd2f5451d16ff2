"""Files that hold an office with many deposits: Python puts the rows in, as the office writes them."""
import hashlib
import pathlib
import tomllib
from collections import Counter

from trial_office import DEPOSITS, PUT_CONTENT, PUT_FILE, PUT_HOLD, RECORD
from trial_office import due_day, opened, ours, own_files
from shared.days import FIRST, LAST
from shared.histories import holds_of, rules_of
from shared.places import POLICY
from shared.policies import allow, deny
from shared.stores import NEWEST, VERSION_3, VERSION_4, newest_of

# The policy of the examples, by which `anna` may do all but dispose in the collection `tax`.
SMALL = tomllib.loads(POLICY.read_text())


def naming(collections):
    """A policy of 200 rules: one for each of these collections, others for collections that no deposit is in, and the
    last for all."""
    others = [deny("archivist", "*", f"c{n}") for n in range(1, 200 - len(collections))]
    return SMALL | {"rule": [allow("archivist", "*", it) for it in collections] + others + [allow("archivist", "*")]}


# 200 rules, of which the last alone fits what is asked: the others are of other collections, or of other roles and
# another action.
LONG = naming([])
ROLES = SMALL | {"rule": [deny(f"r{n}", "audit") for n in range(1, 200)] + [allow("archivist", "*")]}
YEARS = 10
USUAL = {"collection": "maps", "class": "y10", "closed": 20_454, "gone": None, "held": False}


def put_policy(connection, policy):
    """A policy in the place of the one that is there."""
    connection.execute("DELETE FROM caller")
    connection.execute(f"DELETE FROM {NEWEST['rule']}")
    connection.executemany("INSERT INTO caller (name, role) VALUES (?1, ?2)", policy["callers"].items())
    for place, it in enumerate(policy["rule"], 1):
        row = (place, it["effect"] == "allow", it["role"], it["action"], it["collection"], it["class"], FIRST, LAST)
        connection.execute(f"INSERT INTO {NEWEST['rule']} VALUES (?1, ?2, ?3, ?4, ?5, ?6, ?7, ?8)", row)


BAGS = [own_files(number) for number in range(1_000)]


def shared_bag(number):
    """The files of one of 1,000 bags of 10 KiB."""
    return BAGS[number % len(BAGS)]


def small_bag(number):
    """The files of a bag with a record of 100 bytes, which no other deposit has."""
    return own_files(number, RECORD[:100])


def deposit_row(number, it, files):
    """The row of a deposit of which `it` says what is special."""
    place = (f"2026-{number:07}", it["collection"], it["class"], it["closed"])
    due = due_day(it["closed"], YEARS)
    return (number, *place, len(files[1][1]), it["gone"], due, int(it["held"]))


def put_contents(connection, bags):
    """Contents, each kept once. The numbers of their rows."""
    contents = dict.fromkeys(content for files in bags for _, content in files)
    marked = ((hashlib.sha256(it).digest(), len(it), it) for it in contents)
    connection.executemany(PUT_CONTENT, marked)
    return {content: at for at, content in enumerate(contents, 1)}


def put_deposits(connection, table, deposits, bag):
    """Deposits, by number what is special of each, into the table of an office that has none."""
    connection.executemany(
        "INSERT OR IGNORE INTO collection VALUES (?1)", {(it["collection"],) for it in deposits.values()}
    )
    connection.executemany(
        "INSERT OR IGNORE INTO class VALUES (?1, ?2)", {(it["class"], YEARS) for it in deposits.values()}
    )
    connection.executemany(
        f"INSERT INTO {table} (number, accession, collection, class, closed, deposited, files, bytes, gone, due, holds)"
        " VALUES (?1, ?2, ?3, ?4, ?5, 20500, 1, ?6, ?7, ?8, ?9)",
        (deposit_row(n, it, bag(n)) for n, it in deposits.items()),
    )
    kept = [n for n, it in deposits.items() if it["gone"] is None]
    ids = put_contents(connection, map(bag, kept))
    connection.executemany(PUT_FILE, ((n, path, ids[content]) for n in kept for path, content in bag(n)))


def put_holds(connection, deposits):
    """A hold on each deposit that is to have one."""
    held = (n for n, it in deposits.items() if it["held"])
    connection.executemany(PUT_HOLD, ((at, n, None, None, "suit", 20_500) for at, n in enumerate(held, 1)))


def stored(folder, name, rows, of=lambda number: {}, policy=SMALL, bag=shared_bag):
    """The file of this name, an office with this number of deposits. `of` says what is special of a deposit: its
    collection, its class, the days on which it is closed and gone, and whether it has a hold of its own."""
    file = pathlib.Path(folder) / f"{name}.db"
    if file.exists():
        return file
    ours("make", file)
    connection = opened(file)
    connection.execute("BEGIN")
    put_policy(connection, policy)
    deposits = {number: USUAL | of(number) for number in range(1, rows + 1)}
    put_deposits(connection, DEPOSITS, deposits, bag)
    put_holds(connection, deposits)
    connection.execute("COMMIT")
    connection.execute("PRAGMA wal_checkpoint(TRUNCATE)").fetchall()
    connection.close()
    return file


def stored_before(folder, version, holds, rows=100_000):
    """An office in the tables of version 3 or 4. The deposits are in 20 collections and 10 classes. The holds are of
    each kind that the version has, and a third of them is released. There are 200 rules."""
    file = pathlib.Path(folder) / f"version {version}, {holds} holds.db"
    if file.exists():
        return file
    deposits = {n: USUAL | {"collection": f"c{n % 20}", "class": f"y{n % 10}"} for n in range(1, rows + 1)}
    kinds = 2 if version == 3 else 3
    held = holds_of(version, rows, -(-holds // kinds))[:holds]
    live = Counter(it[1:4] for it in held if it[6] is None)
    connection = opened(file)
    connection.execute("BEGIN")
    texts = VERSION_3 if version == 3 else VERSION_4
    table = newest_of(texts)["deposit"]
    for text in texts:
        connection.execute(text)
    connection.execute("INSERT INTO office VALUES (1, ?1, 1000000, 1000000)", (version,))
    connection.executemany("INSERT INTO caller VALUES (?1, ?2)", SMALL["callers"].items())
    connection.executemany("INSERT INTO rule VALUES (?1, ?2, ?3, ?4, ?5, ?6)", rules_of(200))
    put_deposits(connection, table, deposits, shared_bag)
    if version == 3:
        connection.executemany("INSERT INTO hold VALUES (?1, ?2, ?3, ?4, ?5, ?6)", (it[:3] + it[4:] for it in held))
    else:
        connection.executemany("INSERT INTO hold_4 VALUES (?1, ?2, ?3, ?4, ?5, ?6, ?7)", held)
    for number, it in deposits.items():
        over = (number, None, None), (None, it["collection"], None), (None, None, it["class"])
        count = sum(live[target] for target in over)
        connection.execute(f"UPDATE {table} SET holds = ?2 WHERE number = ?1", (number, count))
    connection.execute("COMMIT")
    connection.execute("PRAGMA wal_checkpoint(TRUNCATE)").fetchall()
    connection.close()
    return file
