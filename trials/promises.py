#!/usr/bin/env python3
"""Looks up what the sources in crates/ promise.

  trials/promises.py [--check]   looks up each name of docs/PROMISES.md, and of "What is proved" in README.md, where
                                 these say it is. Prints a line for each that isn't there, and ends with 1 if there is
                                 one.
  trials/promises.py CRATE..     prints each public call and law of these crates: the first sentence of its comment, and
                                 its clauses

How docs/PROMISES.md is read: a heading, or a column "Crates", names the crates of a table's rows. A column "Call",
"Law" or the like has public calls, laws and types. A name in parentheses beside them is a clause of one of these, or a
ghost member. `NAME` of `OTHER` is a clause of a call, a member of a type, or what a crate defines. In a table "with
each clause" a row has each clause of its calls; with a table "Each law" the page has each law of the table's crates. In
README.md a name alone has to occur in the sources.
"""

import re
import sys
from pathlib import Path

from clauses import CLAUSE, FUNCTION, GHOST, definitions

TOP = Path(__file__).resolve().parent.parent
PAGE, README, PROVED = "docs/PROMISES.md", "README.md", "## What is proved"
IMPL = re.compile(r"(?:impl|(?:pub )?trait)\b(.*?)\{\s*$")
TYPE = re.compile(r"pub (?:struct|enum|trait) (\w+)")
VARIANT = re.compile(r"    ([A-Z]\w*)(?:\(| \{|,|$)")
CODE = re.compile(r"`([^`]+)`")
OF = re.compile(r"`(\w+)` of `([\w:]+)`")
CLAUSES = re.compile(r"\(((?:`[a-z]\w*`(?:, )?)+)\)")
# the words of the command line, and its own failure
WORDS = {"ask", "check", "explain", "memory", "pack", "policy", "replay", "serve", "unpack"}


class Call:
    """A public function: the first sentence of its comment, and the names of its clauses."""

    def __init__(self, name, comment, is_law):
        self.name, self.comment, self.is_law = name, comment, is_law
        self.clauses = set()


def without_bounds(text):
    """The text without what is in angle brackets."""
    while re.search(r"<[^<>]*>", text):
        text = re.sub(r"<[^<>]*>", "", text)
    return text


def owner_of(line):
    """The type or trait whose members follow, if the line begins such a block."""
    block = IMPL.match(line)
    named = block and re.search(r"(?:\w+::)*(\w+)", re.split(r"\bfor\b", without_bounds(block[1]))[-1])
    return named and named[1]


class Crate:
    """What a crate promises: its public calls, its types with their ghost members, and what its specifications
    define."""

    def __init__(self, folder):
        self.name, self.calls, self.types, self.defined = folder.name, {}, {}, set()
        self.exported = exported(folder / "src/lib.rt")
        for path in sorted((folder / "src").rglob("*.rt")):
            self.read(path)
        for path in sorted((folder / "specs").rglob("*.antt")):
            self.defined.add(path.stem)
            self.defined.update(name for name, _ in definitions(path.read_text()))

    def read(self, path):
        """Takes in a file of Rattle."""
        owner, call, comment = None, None, []
        for line in path.read_text().splitlines():
            if line == "}":
                owner = None
            owner = owner_of(line) or owner
            is_type, variant = TYPE.match(line), VARIANT.match(line)
            if is_type:
                self.types.setdefault(is_type[1], set())
                owner = is_type[1] if line.endswith("{") else None
            elif variant and owner in self.types:
                self.types[owner].add(variant[1])
            ghost = GHOST.match(line)
            if ghost and owner:
                self.types.setdefault(owner, set()).add(ghost[1])
            function = FUNCTION.match(line)
            if function:
                call = self.call(path, owner, function[1], line, " ".join(comment))
            clause = CLAUSE.match(line)
            if clause and call and clause[1] == "ensures" and clause[2]:
                call.clauses.add(clause[2])
            text = line.strip()
            if not text.startswith("#["):
                comment = [*comment, text[3:].strip()] if text.startswith("///") else []

    def call(self, path, owner, function, line, comment):
        """A new call, where the function is public."""
        is_exported = path.stem in self.exported or (owner or function) in self.exported
        if not is_exported or not re.match(r"\s*pub (?:const |unsafe )*fn ", line):
            return None
        name = f"{owner}::{function}" if owner else function
        return self.calls.setdefault(name, Call(name, re.split(r"(?<=\.)\s", comment)[0], path.stem == "laws"))

    def members(self, name):
        """The clauses of a call, or those and the ghost members of a type; `None` where there is neither."""
        if name in self.calls:
            return self.calls[name].clauses
        if name in self.types:
            return self.types[name].union(
                *(call.clauses for called, call in self.calls.items() if called.startswith(name + "::"))
            )
        return None

    def has(self, name):
        """Whether the crate has a call, a type, a variant or a definition of this name."""
        return (
            name in self.calls
            or name in self.types
            or name in self.defined
            or any(name in members for members in self.types.values())
        )


def exported(root):
    """What the root of a crate exports: names, and modules of which all is public."""
    if not root.exists():
        return set()
    text = root.read_text()
    names = set(re.findall(r"^pub mod (\w+);", text, re.M))
    for listed in re.findall(r"^pub use ([^;]+);", text, re.M):
        names.update(re.findall(r"\w+", listed.partition("{")[2] or listed.split("::")[-1]))
    return names


class Page:
    """A page of promises, with the names that aren't where it says. A name alone may be one of `alone`."""

    def __init__(self, page, crates, alone):
        self.page, self.crates, self.alone = page, crates, alone
        self.lacking, self.named, self.whole = [], set(), set()
        self.kit = set(re.findall(r"\w+", (TOP / "crates.txt").read_text())) - set(crates)

    def lack(self, place, text):
        self.lacking.append(f"{self.page}:{place}: {text}")

    def read(self, lines, first=1):
        """Reads these lines: a paragraph as one text, since a name may be at the end of its line and what has it on the
        next."""
        heading, columns, paragraph = [], [], []
        for place, line in enumerate([*lines, ""], first):
            cells = [cell.strip() for cell in line.split("|")]
            if paragraph and (not line or line.startswith(("#", "- ")) or len(cells) > 1):
                self.read_words(place - len(paragraph), " ".join(paragraph))
                paragraph = []
            if line.startswith("#"):
                heading = self.crates_in(place, line)
            elif len(cells) == 1:
                columns = []
                paragraph += [line.strip()] * bool(line)
            elif not columns:
                columns = cells
                if any("Each law" in column for column in columns):
                    self.whole.update((place, each) for each in heading)
            elif not set(line) <= set("-|"):
                self.read_row(place, dict(zip(columns, cells)), heading)
        for place, crate in sorted(self.whole):
            for call in self.crates[crate].calls.values():
                if call.is_law and call.name not in self.named:
                    self.lack(place, f"the law `{call.name}` of {crate} isn't on the page")

    def crates_in(self, place, text):
        """The crates that a heading or a cell names."""
        found = CODE.findall(text)
        for each in found:
            if each not in self.crates:
                self.lack(place, f"there is no crate `{each}`")
        return [each for each in found if each in self.crates]

    def read_row(self, place, row, heading):
        """A row: its calls are there, and so are the clauses that its other cells name."""
        crates = [self.crates[each] for each in (self.crates_in(place, row["Crates"]) if "Crates" in row else heading)]
        column = next((column for column in row if re.match(r"Call|Law|Each law", column)), None)
        if column is None:
            for cell in row.values():
                self.read_words(place, cell)
            return
        known, clauses = CODE.findall(row[column]), set()
        for name in known:
            found = [members for crate in crates if (members := crate.members(name)) is not None]
            self.named.add(name)
            if not found:
                named = ", ".join(crate.name for crate in crates) or "a crate that is named"
                self.lack(place, f"`{name}` is no public call, law or type of {named}")
            clauses.update(*found)
            if "each clause" in column:
                for clause in sorted(set().union(*found) - set(CODE.findall(" ".join(row.values())))):
                    self.lack(place, f"the clause `{clause}` of `{name}` isn't in its row")
        for each, cell in row.items():
            if each in (column, "Crates"):
                continue
            for listed in CLAUSES.findall(cell):
                for clause in CODE.findall(listed):
                    if clause not in clauses:
                        self.lack(place, f"no call of the row has the clause `{clause}`")
            self.read_words(place, CLAUSES.sub("", cell))

    def read_words(self, place, text):
        """Names in a sentence: `NAME` of `OTHER`, and names alone."""
        for name, other in OF.findall(text):
            found = [members for crate in self.crates.values() if (members := crate.members(other)) is not None]
            if other in self.kit:
                continue
            if other in self.crates:
                if not self.crates[other].has(name):
                    self.lack(place, f"the crate `{other}` has no `{name}`")
            elif not any(name in members for members in found):
                self.lack(place, f"`{other}` has no clause and no member `{name}`")
        for name in CODE.findall(OF.sub("", text)):
            self.read_name(place, name)

    def read_name(self, place, name):
        """A name alone: a crate, something of a crate, a file, or a word of the program. Other texts aren't looked
        up."""
        self.named.add(name)
        if re.fullmatch(r"[\w./]+", name) and re.search(r"\w[./]", name):
            folders = [
                TOP, TOP / "docs", TOP / "crates", *(TOP / "crates").iterdir(), *(TOP / "crates").glob("*/specs")
            ]
            if not any((folder / name).exists() for folder in folders):
                self.lack(place, f"there is no file `{name}`")
        elif re.fullmatch(r"[A-Za-z]\w*(?:::\w+)?(?:<\w>)?", name):
            plain = without_bounds(name)
            is_known = (
                plain in self.crates
                or plain in self.kit | self.alone
                or any(crate.has(plain) for crate in self.crates.values())
            )
            if not is_known:
                self.lack(place, f"no crate has `{name}`")


def show(crate):
    """Prints what a crate promises."""
    print(f"{crate.name}\n")
    for call in sorted(crate.calls.values(), key=lambda call: (call.is_law, call.name)):
        print(f"{'law ' if call.is_law else ''}{call.name}: {call.comment or '(no comment)'}")
        if call.clauses:
            print(f"    {', '.join(sorted(call.clauses))}")
    print()


def check(crates):
    """The names of both pages that aren't where they say."""
    page = Page(PAGE, crates, WORDS)
    page.read((TOP / PAGE).read_text().splitlines())
    sources = [path for part in ("src", "specs") for path in (TOP / "crates").glob(f"*/{part}/**/*") if path.is_file()]
    readme = Page(README, crates, {word for path in sources for word in re.findall(r"\w+", path.read_text())})
    lines = (TOP / README).read_text().splitlines()
    first = lines.index(PROVED) + 1 if PROVED in lines else 0
    end = next((place for place in range(first, len(lines)) if lines[place].startswith("## ")), len(lines))
    if first:
        readme.read(lines[first:end], first + 1)
    else:
        readme.lack(1, f'there is no heading "{PROVED}"')
    return page.lacking + readme.lacking


def main():
    crates = {folder.name: folder for folder in sorted((TOP / "crates").iterdir()) if folder.is_dir()}
    wanted = sys.argv[1:]
    if wanted in ([], ["--check"]):
        lacking = check({name: Crate(folder) for name, folder in crates.items()})
        print("\n".join(lacking) or f"{PAGE}, {README}: each name is where it says")
        sys.exit(bool(lacking))
    if not set(wanted) <= set(crates):
        sys.exit(__doc__)
    for name in wanted:
        show(Crate(crates[name]))


if __name__ == "__main__":
    main()
