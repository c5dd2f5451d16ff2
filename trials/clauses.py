#!/usr/bin/env python3
"""Compares the promises of crates/*/src and the definitions of crates/*/specs with those of a commit, word for word.
Promises are clauses, signatures and ghost members; where lines break doesn't count.

Prints a line for each one that changed or went, and then ends with 1. New ones are counted.

  trials/clauses.py COMMIT             of all crates
  trials/clauses.py COMMIT CRATE..     of these
"""

import re
import subprocess
import sys

from needs import needs
from shared.places import TOP

# A list of generic parameters that has no other within it.
GENERICS = re.compile(r"<(?:->|[^<>])*>")
# The line with which the functions of a type or a trait begin, without its generic parameters.
OWNER = re.compile(r"(?:pub )?(?:unsafe )?(?:impl (?:.* for )?|trait )(?:\w+::)*(\w+)\s*(?:(?::|where\b)[^{]*)?\{\s*$")
FUNCTION = re.compile(r"\s*(?:pub(?:\([^)]*\))? )?(?:const )?(?:unsafe )?fn (\w+)")
CLAUSE = re.compile(r"\s*(ensures|requires) (?:(\w+) )?\{")
GHOST = re.compile(r"\s*(?:pub )?ghost (?!use )(\w+)")
DEFINED = re.compile(r"(?:abbrev |unfolding )?(?:pub )?(?:record |data )?(?!use |mod |module )([^\s:({]+)(?=\s*[:({])")


def git(*words):
    """What git prints."""
    return subprocess.run(["git", *words], cwd=TOP, check=True, capture_output=True, text=True).stdout


def texts(commit, folder):
    """The files of a folder of crates/, by name, as the commit has them."""
    for name in git("ls-tree", "-r", "--name-only", commit, folder).split():
        yield name, git("show", f"{commit}:{name}")


def texts_here(folder):
    """The same as they are now."""
    for path in sorted((TOP / folder).rglob("*")):
        if path.is_file():
            yield str(path.relative_to(TOP)), path.read_text()


def words(text):
    """What has a meaning in it: how its lines break has none, nor has a comma before a closing parenthesis."""
    found = re.findall(r"\w+|[^\w\s]", text)
    return tuple(word for word, after in zip(found, [*found[1:], ""]) if not (word == "," and after in ")}]"))


def without_generics(line):
    """A line without its lists of generic parameters."""
    while (shorter := GENERICS.sub("", line)) != line:
        line = shorter
    return line


def block(lines, place):
    """The lines from this one on until its braces are closed."""
    depth = 0
    for end in range(place, len(lines)):
        depth += lines[end].count("{") - lines[end].count("}")
        if depth == 0 and ("}" in lines[end] or lines[end].rstrip().endswith(";")):
            return lines[place : end + 1]
    return lines[place:]


def signature(lines, place):
    """The lines of a function from this one on before its clauses and its body."""
    for end in range(place, len(lines)):
        if end > place and CLAUSE.match(lines[end]):
            return lines[place:end]
        if re.search(r"\{\s*$|;\s*$|\{\}\s*$", lines[end]):
            return [*lines[place:end], re.sub(r"[{};]*\s*$", "", lines[end])]
    return lines[place:]


def clauses(text):
    """What a file of Rattle promises, and its words: each clause by its function and its name, each signature, each
    ghost member."""
    owner, function, lines = "", "", text.splitlines()
    for place, line in enumerate(lines):
        if line == "}":
            owner = ""
        is_owner = OWNER.match(without_generics(line))
        if is_owner:
            owner = is_owner[1] + "::"
        is_function = FUNCTION.match(line)
        if is_function:
            function = owner + is_function[1]
            yield f"{function}, signature", words("\n".join(signature(lines, place)))
        is_clause = CLAUSE.match(line)
        if is_clause:
            yield f"{function}, {is_clause[1]} {is_clause[2] or ''}".rstrip(), words("\n".join(block(lines, place)))
        is_ghost = GHOST.match(line)
        if is_ghost:
            yield f"{owner}ghost {is_ghost[1]}", words("\n".join(block(lines, place)))


def definitions(text):
    """Each definition of a file of specifications: its name, and its words."""
    lines = text.splitlines()
    others = " ", "--", "use ", "pub use ", "pub mod ", "}"
    starts = [at for at, line in enumerate(lines) if line and not line.startswith(others) and DEFINED.match(line)]
    for place, end in zip(starts, [*starts[1:], len(lines)]):
        body = [line for line in lines[place:end] if not line.startswith(("--", "use ", "pub use "))]
        yield DEFINED.match(lines[place])[1], words("\n".join(body))


def gathered(files, part, read, crate):
    """What these files have, by name. Where a name occurs twice, all that it names."""
    found = {}
    for name, text in files:
        if f"/{part}/" in name and name.endswith((".rt", ".antt")):
            for what, its_words in read(text):
                found.setdefault(f"{crate}: {what}", []).append(its_words)
    return found


def main():
    needs("git")
    commit, *crates = sys.argv[1:] or sys.exit(__doc__)
    crates = crates or sorted(path.name for path in (TOP / "crates").iterdir())
    differing = same = new = 0
    for crate in crates:
        for part, read in (("src", clauses), ("specs", definitions)):
            folder = f"crates/{crate}/{part}"
            old = gathered(texts(commit, folder), part, read, crate)
            now = gathered(texts_here(folder), part, read, crate)
            for what, its_words in sorted(old.items()):
                if now.get(what) == its_words:
                    same += 1
                else:
                    differing += 1
                    print(f"{what}: {'changed' if what in now else 'gone'}")
            new += len(now.keys() - old.keys())
    print(f"{same} are the same, {differing} changed or went, {new} are new")
    sys.exit(differing > 0)


if __name__ == "__main__":
    main()
