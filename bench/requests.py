#!/usr/bin/env python3
"""Speed of requests to the office over a file.

Each case is measured beside the SQL statements alone that the request makes, in their order and in
one transaction, through Python's sqlite3 (WAL, synchronous FULL, foreign keys on). Prints a ratio for
each: of the medians of runs that take turns (RUNS=n, 7 if left out). `large`, `several` and `many` are
ratios of peak memory. The program crates/trial_office, which makes the requests, has to be built; it
doesn't count the opening of the file, and nor does the other side. BESIDE=PROGRAM measures beside another
build of it, time and memory, instead of the statements. The arguments of `requests.py` name the cases that are
run; with none, all are.
"""
from trial_office import DEPOSITS, FILES, PUT_DEPOSIT, RUNS
from trial_office import copy, filled, main, opened, ours, own_files, put_file, turns, watched
from shared.places import TRIAL_OFFICE
from statements import scattered, theirs
from stores import LONG, ROLES, naming, put_policy, stored
from turns import BESIDE, other_side, say, say_memory

MANY = 100_000


def beside(name, count, asked, stated, most):
    """What the program takes for this number of requests, beside their statements or another build of the program."""
    other, *named = other_side(asked, stated, "its statements through Python", most)
    say(name, count, *turns(lambda: asked(TRIAL_OFFICE), other), *named)


def reading(name, file, words, last, count, most=None):
    """A request that changes nothing. `words` has its names: of the program, and of the statements."""
    asked = lambda program: ours(words[0], file, count, program=program)
    beside(name, count, asked, lambda: theirs(file, words[1], scattered(last, count), "ROLLBACK"), most)


def changing(name, file, words, given, most=None):
    """A request that changes the file, each time in a copy."""
    count = len(given)
    asked = lambda program: ours(words[0], copy(file, "ours.db"), count, program=program)
    beside(name, count, asked, lambda: theirs(copy(file, "theirs.db"), words[1], given, "COMMIT"), most)


def deposit(folder):
    """Deposits of bags of 10 KiB with three files, into an office of 100."""
    given = [(number, own_files(number)) for number in range(101, 401)]
    changing("deposit", filled(folder, 100), ("ask-own-deposits", "own_deposit"), given, 1.4)


def again(folder):
    """The same with the same bytes each time, and by how much the file grows, its log folded in."""
    file, count = filled(folder, 100), 1_000
    changing("again", file, ("ask-deposits", "deposit"), range(101, 101 + count), 1.4)
    grown = file.with_name("ours.db").stat().st_size - file.stat().st_size
    print(f"again: the file grows by {grown / count:.0f} bytes a deposit (less than 1,024)", flush=True)


def by_rules(file, name, policy):
    """The same office by another policy."""
    to = copy(file, f"{file.stem} by {name}.db")
    connection = opened(to)
    connection.execute("BEGIN")
    put_policy(connection, policy)
    connection.execute("COMMIT")
    connection.close()
    return to


def at_many(folder, name, words, count, most=None):
    """A request that changes nothing, at 100,000 deposits and as many holds, by the policy of the examples
    and by two of 200 rules."""
    file = stored(folder, "held", MANY, lambda number: {"held": True})
    reading(name, file, words, MANY, count, most)
    for rules, policy in (("200 rules", LONG), ("200 rules of other roles", ROLES)):
        reading(f"{name} by {rules}", by_rules(file, rules, policy), words, MANY, count)


def record(folder):
    """Records."""
    at_many(folder, "record", ("ask-records", "record"), 20_000, 0.6)


def disposal(folder):
    """Disposals that a hold refuses."""
    at_many(folder, "disposal", ("ask-disposals", "disposal"), 20_000, 0.6)


def bag(folder):
    """Downloads of a bag of 10 KiB, the SHA-256 of each content taken on both sides: beside one statement for each
    file, as the office makes them, and beside two, as it made them when the target was set."""
    at_many(folder, "bag", ("ask-bags", "bag"), 10_000, 0.75)
    if not BESIDE:
        at_many(folder, "bag by two statements a file", ("ask-bags", "bag_by_paths"), 10_000)


def whole_list(folder):
    """A list of 10,000 records by 200 rules, over 10 pairs of collection and class, and over 5,000, also by
    rules that name 100 of their collections."""
    for pairs in (10, 5_000):
        of = lambda n: {"collection": f"a{n % pairs // 10}", "class": f"y{n % 10}"}
        file = stored(folder, f"{pairs} pairs", 10_000, of, LONG)
        reading(f"list over {pairs:,} pairs", file, ("ask-lists", "list"), 10_000, 5, 1.5)
    named = by_rules(file, "rules of 100 collections", naming([f"a{n}" for n in range(100)]))
    reading(f"list over {pairs:,} pairs, 100 collections named", named, ("ask-lists", "list"), 10_000, 5, 1.5)


def past(rows, destroyed=False):
    """What is special of the deposits of an office: 100 are due, 1,000 more are past their day and held,
    and half of all, if asked for, are past it and destroyed."""

    def of(number):
        if number % (rows // 100) == 0:
            return {"closed": 16_801}
        if number % (rows // 1_000) == 2:
            return {"closed": 16_801, "held": True}
        if destroyed and number % 2:
            return {"closed": 16_801, "gone": 20_480}
        return {}

    return of


def due(folder):
    """The due list at 100,000 deposits, beside its statements and beside the same at 10,000, and with
    50,000 that are destroyed."""
    files = {rows: stored(folder, f"due {rows}", rows, past(rows)) for rows in (MANY, 10_000)}
    words, count = ("ask-due", "due"), 20
    reading("due", files[MANY], words, MANY, count, 1.5)
    first, second = turns(*(lambda it=it: ours(words[0], it, count) for it in files.values()))
    say("due", count, first, second, "the same at 10,000 deposits", 3)
    gone = stored(folder, "destroyed", MANY, past(MANY, destroyed=True))
    reading("due with 50,000 destroyed", gone, words, MANY, count)


def over_many(folder, name, words, most):
    """A request that changes 100,000 deposits, 10,000, and 1,000 of 100,000: those of the collection `tax`
    and the class `y10`."""
    for rows, among, count in ((MANY, MANY, 2), (10_000, 10_000, 10), (1_000, MANY, 10)):
        of = lambda n: {"collection": "tax"} if n % (among // rows) == 0 else {"class": "y5"}
        file = stored(folder, f"{rows} of {among}", among, of)
        wanted = most if rows == among else None
        changing(f"{name} of {rows:,} of {among:,}", file, words, range(1, count + 1), wanted)


def hold(folder):
    """Holds of a collection."""
    over_many(folder, "hold", ("ask-holds", "hold_collection"), 3)


def revision(folder):
    """A class that is revised: over deposits closed on one day, and closed on 5,000 days in turn."""
    over_many(folder, "class", ("ask-classes", "revise"), 2)
    file = stored(folder, "5,000 days", MANY, lambda n: {"collection": "tax", "closed": 20_454 - n % 5_000})
    changing(f"class of {MANY:,} closed on 5,000 days", file, ("ask-classes", "revise"), range(1, 3))


def with_one(file, count, size):
    """Leaves an office one deposit, of a bag of this size in this number of payload files."""
    tags = [it for it in FILES if it[0] != "data/record"]
    # What is left for the contents of the payload, with some room for the headers of the form.
    left = size - sum(len(path) + len(it) for path, it in tags) - 200 - 40 * count
    each = left // count
    connection = opened(file)
    connection.execute("DELETE FROM file")
    connection.execute("DELETE FROM content")
    connection.execute(f"DELETE FROM {DEPOSITS}")
    connection.execute(PUT_DEPOSIT, (1, "2026-0000001", "tax", "y10", 20454, 20500, count, count * each, None, 0))
    # No two have the same content, which would be kept once.
    records = [(f"data/record{n:04}", b"%04d" % n + b"r" * (each - 4)) for n in range(count)]
    for path, it in tags + records:
        put_file(connection, 1, path, it)
    connection.execute("PRAGMA wal_checkpoint(TRUNCATE)").fetchall()
    connection.close()


def peak_of(folder, name, count):
    """A download of a bag of 16 MiB in this number of payload files: peak memory beside the same program's
    once it had opened the file, or beside another build's."""
    file, size = copy(filled(folder, 100), f"{name}.db"), 16 * 1024 * 1024
    with_one(file, count, size)
    opening = lambda program: watched("ask-records", file, 0, program=program)[1]
    whole = lambda program: watched("ask-bags", file, 1, program=program)[1]
    above = lambda program: whole(program) - opening(program)
    if BESIDE:
        say_memory(f"{name}, above the opening", above, TRIAL_OFFICE, RUNS)
        say_memory(f"{name}, with the opening", whole, TRIAL_OFFICE, RUNS)
    else:
        base = opening(TRIAL_OFFICE)
        times = (whole(TRIAL_OFFICE) - base) / size
        print(f"{name}: {times:.2f} times 16 MiB above {base / 2**20:.1f} MiB (at most 3)", flush=True)


def large(folder):
    """The peak memory of a download of 16 MiB in one file."""
    peak_of(folder, "large", 1)


def several(folder):
    """The peak memory of a download of 16 MiB in sixteen files."""
    peak_of(folder, "several", 16)


def many(folder):
    """The peak memory of a download of 16 MiB in 1,998 files."""
    peak_of(folder, "many", 1_998)


CASES = {
    "deposit": deposit,
    "again": again,
    "record": record,
    "disposal": disposal,
    "bag": bag,
    "list": whole_list,
    "due": due,
    "hold": hold,
    "class": revision,
    "large": large,
    "several": several,
    "many": many,
}

if __name__ == "__main__":
    main(CASES)
