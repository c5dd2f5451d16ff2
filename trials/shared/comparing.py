"""How the scripts compare: the first difference ends a script with status 1, and a line on standard error says what
differs."""
import os
import pathlib
import sys

# How much of two values is printed that differ.
MOST = 600
counts = {"comparisons": 0}


def fail(text):
    """Ends the script: the line begins with its name."""
    sys.exit(f"{pathlib.Path(sys.argv[0]).stem}: {text}")


def check(holds, text):
    """Ends the script where something doesn't hold."""
    if not holds:
        fail(text)
    counts["comparisons"] += 1


def compare(what, wanted, found):
    """Ends the script where something else was found than is wanted."""
    if wanted != found:
        wanted, found = shown(wanted, found)
        fail(f"{what}: {wanted} is wanted, and this came: {found}")
    counts["comparisons"] += 1


def shown(*values):
    """Values as they are printed: long ones from a little before they first differ."""
    texts = list(map(repr, values))
    begin = 0
    if max(map(len, texts)) > MOST:
        begin = max(0, len(os.path.commonprefix(texts)) - MOST // 3)
    return [".. " * (begin > 0) + text[begin : begin + MOST] + " .." * (begin + MOST < len(text)) for text in texts]


def compared():
    """How many comparisons there were."""
    return counts["comparisons"]
