"""What the speed scripts share: runs that take turns, their spread, how they are printed, and what they ran on."""
import os
import platform
import sqlite3
import statistics
import subprocess
import sys
import tempfile

from shared.comparing import fail
from shared.places import is_there

# Another build of the program that is measured, where the environment names one: it takes the other side.
BESIDE = os.environ.get("BESIDE")
OTHER = "the other program"
if BESIDE and not is_there(BESIDE):
    fail(f"BESIDE names {BESIDE}, which isn't a program")


def chosen(cases):
    """The cases that the script's arguments name, or all."""
    names = sys.argv[1:] or list(cases)
    if any(name not in cases for name in names):
        fail("the cases are " + ", ".join(cases))
    return names


def turns(ours, theirs, runs):
    """What two sides gave, in runs that take turns; they take turns in going first, too."""
    ones, others = [], []
    for turn in range(runs):
        sides = [(ones, ours), (others, theirs)]
        for found, side in sides if turn % 2 else reversed(sides):
            found.append(float(side()))
    return ones, others


def ratio(ones, others):
    """The ratio of the medians."""
    return statistics.median(ones) / statistics.median(others)


def spread(found):
    """Half of what lies between the quartiles, as a part of the median."""
    if len(found) < 4:
        return (max(found) - min(found)) / 2 / statistics.median(found)
    low, middle, high = statistics.quantiles(found)
    return (high - low) / 2 / middle


def spreads(ones, others):
    """The spread of both sides, as it is printed."""
    return f"spread {spread(ones):.0%} and {spread(others):.0%}"


def other_side(asked, stated, named, most=None):
    """What is measured beside a program that is asked, how it is called, and how many times as much the program may
    take. It is what is stated; or another build of the program, which is asked the same, and has no bound."""
    return (lambda: asked(BESIDE), OTHER, None) if BESIDE else (stated, named, most)


def say(name, count, ones, others, other, most=None, unit="microseconds each"):
    """Prints a case: the ratio of what two sides took, and what each took. One with no `most` is a figure."""
    first, second = statistics.median(ones), statistics.median(others)
    wanted = f"at most {most}" if most else "the figure"
    each = f"{first / count:.1f} and {second / count:.1f} {unit}; {spreads(ones, others)}"
    print(f"{name}: {first / second:.2f} times {other} ({wanted}; {each})", flush=True)


def say_memory(name, asked, program, runs):
    """Prints how much memory a program takes, in bytes, beside the other build of it."""
    found = turns(lambda: asked(program), lambda: asked(BESIDE), runs)
    say(name, 2**20, *found, OTHER, unit="MiB")


def first_line(*words):
    """The first line that a command says of its version."""
    found = subprocess.run(words, capture_output=True, text=True)
    return (found.stdout or found.stderr).split("\n")[0]


def say_machine(*commands):
    """Prints what the runs are made on: the processors, the file system, and the versions of these commands."""
    place = tempfile.gettempdir()
    kind = subprocess.run(["stat", "-f", "-c", "%T", place], capture_output=True, text=True).stdout.strip()
    named = [first_line(it, "version" if it == "openssl" else "--version") for it in commands]
    with open("/proc/cpuinfo") as file:
        models = {line.split(":")[1].strip() for line in file if line.startswith("model name")}
    print(
        f"on {os.cpu_count()} processors ({', '.join(sorted(models))}), {place} on {kind},"
        f" {', '.join([*named, f'Python {platform.python_version()}', f'SQLite {sqlite3.sqlite_version}'])}",
        flush=True,
    )
