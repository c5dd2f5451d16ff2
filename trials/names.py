#!/usr/bin/env python3
"""Lists the names of definitions that occur in the specs/ of two crates or more, with these crates: such a name should
mean one thing everywhere. The last line has their number. With names as arguments, it lists these alone, each with the
comment above its definition.
"""

import re
import sys
from collections import defaultdict

from shared.places import TOP

CRATES = TOP / "crates"
# A definition of a file's own: `pub record Name`, `abbrev pub name`, `pub name :`; a module and a re-export are none.
DEFINED = re.compile(r"(?:abbrev |unfolding )?pub (?:record |data )?(?!use |mod )([^\s:({]+)")


def definitions():
    """Each name, with the crate, the file and the comment above each of its definitions."""
    found = defaultdict(list)
    for path in sorted(CRATES.glob("*/specs/**/*.antt")):
        lines = path.read_text().splitlines()
        for place, line in enumerate(lines):
            name = DEFINED.match(line)
            if name:
                above = place
                while above and lines[above - 1].startswith("-- "):
                    above -= 1
                comment = " ".join(text.removeprefix("-- ") for text in lines[above:place])
                found[name[1]].append((path.relative_to(CRATES).parts[0], path.stem, comment))
    return found


def main():
    found = definitions()
    if sys.argv[1:]:
        for name in sys.argv[1:]:
            for crate, file, comment in found[name]:
                print(f"{name}  {crate}/{file}  {comment}")
        return
    shared = {name: sorted({crate for crate, _, _ in places}) for name, places in found.items()}
    shared = {name: crates for name, crates in shared.items() if len(crates) > 1}
    for name, crates in sorted(shared.items()):
        print(name, *crates)
    print(f"names: {len(shared)} of {len(found)} names stand in two crates or more")


if __name__ == "__main__":
    main()
