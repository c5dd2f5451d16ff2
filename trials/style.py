#!/usr/bin/env python3
"""Says where scripts and documents don't keep the repository's rules of style, a line for each place. The checks:

- `shellcheck` over every shell script, and `pyflakes` over every Python file;
- `endings`: sources end their lines with LF alone, have no blank at the end of a line and no tab, and end with one LF;
- `columns`: a line of a document has at most 120 columns, unless it is of a table or of a block of code, or is one
  word; and so has each line of a shell script or a Python file;
- `words`: README.md, docs/*.md and crates/*/README.md have at most 31,000 words together;
- `links`: what a document links to is there, and each file that it names in backquotes, with a `/` or as NAME.md; so
  are an anchor, and a section in quotes that follows the name of its document;
- `edits`: each edit of crates/*/{must-fail,wrong-bodies,controls,refused-by-tests} fits: its files are there, and each
  `old:` text is in its file exactly once;
- `hosts`: no tracked file has a path of somebody's machine, or the host of a registry;
- `trials`: trials.txt has each trial of this folder once, with what its script needs, and every other file is a part of
  one;
- `made`: what scripts make of the sources is as they make it: docs/PROMISES.md by promises.py, and docs/depot.1 and
  docs/depot.bash by manual.py, by the program of DEPOT or the repository's own; where there is neither, the last line
  says so.

Arguments: the checks; all of them if left out.
"""
import collections
import concurrent.futures
import os
import pathlib
import re
import subprocess
import sys

from needs import needs

TOP = pathlib.Path(__file__).resolve().parent.parent
TRIALS = TOP / "trials"
COLUMNS, WORDS = 120, 31_000
# The documents, as people read them.
DOCUMENTS = (
    "README.md",
    "CONTRIBUTING.md",
    "CHANGELOG.md",
    "docs/*.md",
    "crates/*/README.md",
    "bench/README.md",
    "trials/README.md",
)
COUNTED = ("README.md", "docs/*.md", "crates/*/README.md")
SOURCES = {".rt", ".antt", ".sh", ".py", ".md", ".js", ".html", ".css"}
# A name in backquotes with one of these endings, or below a folder of the top, is that of a file.
ENDINGS = SOURCES | {".toml", ".sql", ".edit", ".yaml", ".conf", ".bash", ".records", ".bagset", ".service", ".timer"}
# What is missing in a table of trials, since every Debian has it or a helper asks for it.
ASSUMED = {"util-linux", "coreutils", "procps", "dbus", "python3", "dpkg"}
# (in two parts, so that this file has none)
HOSTS = re.compile("|".join((
    r"(?<![\w.$}])/(?:" + r"work|opt|home|Users)/[\w.-]",
    r"\b(?:" + r"crates\.io|pypi\.|npmjs\.|rubygems\.|golang\.org|docker\.io|ghcr\.io|quay\.io|deb\.debian\.|"
    r"archive\.ubuntu\." + ")",
)))

wrong = []
notes = []


def say(path, number, text):
    """A place where a rule isn't kept."""
    wrong.append(f"{path}:{number}: {text}" if number else f"{path}: {text}")


def tracked():
    """Each file of the repository that git knows or would add, by its path from the top."""
    words = ["git", "-C", TOP, "ls-files", "-z", "--cached", "--others", "--exclude-standard"]
    names = subprocess.run(words, check=True, capture_output=True).stdout.decode().split("\0")
    return sorted({name for name in names if name and (TOP / name).is_file()})


FILES = []


def text_of(name):
    """The text of a file, or nothing where it isn't text."""
    try:
        return (TOP / name).read_text(encoding="utf-8")
    except UnicodeDecodeError:
        return ""


def is_shell(name):
    """Whether a file is a shell script, or a part of one that says so."""
    if name.endswith(".sh"):
        return True
    if pathlib.PurePath(name).suffix in SOURCES | {".edit"}:
        return False
    head = text_of(name).split("\n")[:6]
    return bool(head and re.match(r"#!.*\b(?:ba|da)?sh\b", head[0])) or any(
        line.startswith("# shellcheck shell=") for line in head
    )


def ran(words, files):
    """Runs a tool over files, side by side, and takes each of its lines as a place."""
    lanes = os.cpu_count() or 1
    with concurrent.futures.ThreadPoolExecutor(lanes) as pool:
        parts = [[*words, *files[lane::lanes]] for lane in range(lanes) if files[lane::lanes]]
        for done in pool.map(lambda part: subprocess.run(part, capture_output=True, text=True, cwd=TOP), parts):
            said = (done.stdout + done.stderr).splitlines()
            wrong.extend(said)
            if done.returncode and not said:
                wrong.append(f"{words[0]} ended with {done.returncode}")


def check_shellcheck():
    scripts = [name for name in FILES if is_shell(name)]
    ran(["shellcheck", "--format=gcc"], scripts)
    return f"{len(scripts)} scripts"


def check_pyflakes():
    files = [name for name in FILES if name.endswith(".py")]
    ran(["pyflakes3"], files)
    return f"{len(files)} files"


def check_endings():
    count = 0
    for name in FILES:
        if pathlib.PurePath(name).suffix not in SOURCES and not is_shell(name):
            continue
        count += 1
        whole = (TOP / name).read_bytes()
        if whole and (not whole.endswith(b"\n") or whole.endswith(b"\n\n")):
            say(name, 0, "the file doesn't end with one LF")
        for number, line in enumerate(whole.split(b"\n"), 1):
            if b"\r" in line:
                say(name, number, "a CR")
            elif line != line.rstrip(b" \t"):
                say(name, number, "a blank at the end of the line")
            elif line.lstrip(b" ").startswith(b"\t"):
                say(name, number, "a tab at the beginning of the line")
    return f"{count} sources"


def documents(patterns):
    """The documents of these patterns."""
    return sorted(str(path.relative_to(TOP)) for pattern in patterns for path in TOP.glob(pattern))


def lines_of(name):
    """Each line of a document with its number, and whether it is in a block of code."""
    is_code = False
    for number, line in enumerate(text_of(name).split("\n"), 1):
        if re.match(r" *```", line):
            is_code = not is_code
            yield number, line, True
        else:
            yield number, line, is_code


def check_columns():
    names = documents(DOCUMENTS)
    for name in names:
        for number, line, is_code in lines_of(name):
            is_table = line.startswith("|") or " | " in line
            if len(line) > COLUMNS and not is_code and not is_table and " " in line.strip():
                say(name, number, f"{len(line)} columns")
    scripts = [name for name in FILES if name.endswith(".py") or is_shell(name)]
    for name in scripts:
        for number, line in enumerate(text_of(name).split("\n"), 1):
            if len(line) > COLUMNS:
                say(name, number, f"{len(line)} columns")
    return f"{len(names)} documents and {len(scripts)} scripts"


def check_words():
    count = sum(len(text_of(name).split()) for name in documents(COUNTED))
    if count > WORDS:
        say(", ".join(COUNTED), 0, f"{count:,} words, and at most {WORDS:,} are wanted")
    return f"{count:,} words"


def anchors_of(name):
    """The headings of a document, and the anchors that they make."""
    titles = [
        re.sub(r"^#+ +", "", line)
        for _, line, is_code in lines_of(name)
        if not is_code and re.match(r"#+ ", line)
    ]
    plain = [title.replace("`", "") for title in titles]
    anchors, seen = set(), collections.Counter()
    for title in plain:
        anchor = re.sub(r"[^\w\- ]", "", title.lower()).replace(" ", "-")
        anchors.add(f"{anchor}-{seen[anchor]}" if seen[anchor] else anchor)
        seen[anchor] += 1
    return set(plain), anchors


def found(document, name):
    """The files that a name in a document may mean: from the top or the document's folder, or in `docs/`, `crates/` or
    a crate."""
    name = re.sub(r"(?<![\w.])[A-Z]+(?=/)|(?<=/)[A-Z]+(?=$|\.(?!md))", "*", name.rstrip("/"))
    bases = [TOP, (TOP / document).parent, TOP / "docs", TOP / "crates"]
    for base in bases:
        if hit := [path for path in base.glob(name) if path.exists()]:
            return hit
        if name.startswith("../") and (base / name).exists():
            return [base / name]
    return [path for inner in ("*", "*/*") for path in (TOP / "crates").glob(f"{inner}/{name}")]


def alternatives(name):
    """The names that one with braces stands for."""
    cut = re.fullmatch(r"(.*)\{([^{}]*)\}(.*)", name)
    if not cut:
        return {name}
    return {it for part in cut[2].split(",") for it in alternatives(cut[1] + part + cut[3])}


def files_in(span):
    """The names of files in a text in backquotes, but those with `+`, which a change is to add."""
    for word in span.split():
        word = word.strip(",;:()'\"")
        if not re.fullmatch(r"[\w.*@+{},-]+(?:/[\w.*@+{},-]*)*", word):
            continue
        suffix = pathlib.PurePath(word).suffix
        if "/" not in word and suffix != ".md":
            continue
        first = word.split("/")[0]
        if suffix in ENDINGS or first not in (".", "..") and (TOP / first).is_dir():
            yield from sorted(it for it in alternatives(word) if "+" not in it)


def check_links():
    names, count = documents(DOCUMENTS), 0
    headings = {}
    for name in names:
        text = "\n".join("" if is_code else line for _, line, is_code in lines_of(name))
        at = lambda place: text.count("\n", 0, place) + 1
        # links
        for link in re.finditer(r"\]\(([^)\s]+)\)", text):
            target, _, anchor = link[1].partition("#")
            if re.match(r"[a-z]+:", target):
                continue
            count += 1
            path = (TOP / name).parent / target if target else TOP / name
            if not path.exists():
                say(name, at(link.start()), f"a link to {target}, which isn't there")
            elif anchor and anchor not in anchors_of(os.path.relpath(path, TOP))[1]:
                say(name, at(link.start()), f"a link to {link[1]}, which has no such anchor")
        # names in backquotes, but those of files that the reader is told to write
        written = set(re.findall(r"\bWrite\s`([^`]+)`:", text))
        for span in re.finditer(r"(`+)([^`]+)\1", text):
            for word in files_in(span[2]):
                count += 1
                if word not in written and not found(name, word):
                    say(name, at(span.start()), f"`{word}` isn't there")
        # sections: `NAME.md`, "Title"
        for place in re.finditer(r"`([\w/.]+\.md)`,\s+(?:under\s+)?\"([^\"]+)\"", text):
            count += 1
            for path in found(name, place[1])[:1]:
                key = os.path.relpath(path, TOP)
                headings.setdefault(key, anchors_of(key)[0])
                title = " ".join(place[2].replace("`", "").split()).rstrip(".,;")
                if title not in headings[key]:
                    say(name, at(place.start()), f"{place[1]} has no section \"{title}\"")
    return f"{count} links and names in {len(names)} documents"


def fit(name, folder):
    """Says where an edit of sources in this folder doesn't fit them. Its texts are changed in turn."""
    texts, path = {}, None
    for number, line in enumerate(text_of(name).split("\n"), 1):
        key, _, rest = line.partition(":")
        rest = rest.removeprefix(" ")
        if key == "file":
            path = str(folder / rest.strip())
            if not (TOP / path).is_file():
                return say(name, number, f"{path} isn't there")
            texts.setdefault(path, text_of(path))
        elif key == "old":
            old = rest
            if path is None or texts[path].count(old) != 1:
                return say(name, number, f"this text is in {path} {texts.get(path, '').count(old)} times, not once")
        elif key == "new":
            texts[path] = texts[path].replace(old, rest)
    return None if texts else say(name, 0, "it names no file")


def check_edits():
    names = [pathlib.PurePath(name) for name in FILES if re.fullmatch(r"crates/[^/]+/[^/]+/[^/]+\.edit", name)]
    for name in names:
        crates, crate, kind, _ = name.parts
        fit(str(name), pathlib.PurePath(crates) if kind == "refused-by-tests" else pathlib.PurePath(crates, crate))
    return f"{len(names)} edits"


def check_hosts():
    for name in FILES:
        for number, line in enumerate(text_of(name).split("\n"), 1):
            if hit := HOSTS.search(line):
                say(name, number, f"'{hit[0]}' is of a machine or a registry")
    return f"{len(FILES)} files"


def asked_by(text, parts):
    """What a script says that it needs, and its parts: packages, and the words of trials.txt."""
    words = {
        "needs_program": "program",
        "needs_trial_office": "trial_office",
        "needs_kit": "kit",
        "needs_root": "root",
        "needs_mounts": "mounts",
    }
    asked = {meaning for call, meaning in words.items() if re.search(rf"^ *{call}\b", text, re.M)}
    for line in re.findall(r"^ *needs (\S.*)$", text, re.M):
        asked |= {word.rpartition("=")[2] for word in line.split()}
    for call in re.findall(r"\bneeds(?:_modules)?\(([^()]*)\)", text):
        asked |= {word.rpartition("=")[2] for word in re.findall(r"\"([\w./=+-]+)\"", call)}
    for part in re.findall(r"^\. \"\$top/trials/(\w+\.sh)\"$", text, re.M):
        if part != "needs.sh":
            asked |= asked_by(parts[part], parts)
    return asked


def check_trials():
    scripts = {
        path.name: path.read_text(encoding="utf-8") for path in TRIALS.iterdir() if path.suffix in (".sh", ".py")
    }
    scripts["run"] = (TRIALS / "run").read_text(encoding="utf-8")
    page = (TRIALS / "README.md").read_text(encoding="utf-8")
    table = {}
    for number, line in enumerate((TRIALS / "trials.txt").read_text(encoding="utf-8").split("\n"), 1):
        if not line or line.startswith("#"):
            continue
        cells = [cell.strip() for cell in line.split("|")]
        if len(cells) != 3 or not cells[2]:
            say("trials/trials.txt", number, "the line isn't NAME | NEEDS | SHOWS")
        elif cells[0] in table or cells[0] not in scripts:
            say(
                "trials/trials.txt",
                number,
                f"{cells[0]} is there twice" if cells[0] in table else f"there is no {cells[0]}",
            )
        else:
            table[cells[0]] = set(cells[1].split())
            if not os.access(TRIALS / cells[0], os.X_OK):
                say(f"trials/{cells[0]}", 0, "it can't be called")
    for name, needed in table.items():
        asked = asked_by(scripts[name], scripts)
        if lacking := asked - needed - ASSUMED:
            say("trials/trials.txt", 0, f"{name} asks for {', '.join(sorted(lacking))}")
        if name.endswith(".sh") and (more := needed - asked - ASSUMED - {"hours"}):
            say("trials/trials.txt", 0, f"{name} doesn't ask for {', '.join(sorted(more))}")
    for name in set(scripts) - set(table) - {"run"}:
        use = rf"(?<![\w.]){re.escape(name)}\b"
        if name.endswith(".py"):
            use += rf"|^[^#\n]*\b(?:import|from)\b.*\b{re.escape(name[:-3])}\b"
        others = [text for other, text in scripts.items() if other != name] + [page]
        if not any(re.search(use, text, re.M) for text in others):
            say(f"trials/{name}", 0, "it is neither in trials.txt nor used by another file")
    return f"{len(table)} trials"


def check_made():
    made = []
    for script in ("promises.py", "manual.py"):
        path = TRIALS / script
        if not path.exists():
            continue
        words, there = [sys.executable, path], TOP / "crates/depot/out/depot-program"
        if script == "manual.py":
            program = os.environ.get("DEPOT") or (str(there) if there.exists() else None)
            if program is None:
                notes.append("docs/depot.1 and docs/depot.bash were not compared: there is no program")
                continue
            words.append(os.path.abspath(program))
        done = subprocess.run(words, capture_output=True, text=True, cwd=TOP)
        if done.returncode == 3:
            notes.append(f"{script} can't run here: {done.stderr.strip()[-200:]}")
        elif done.returncode:
            say(f"trials/{script}", 0, f"ended with {done.returncode}: {(done.stdout + done.stderr).strip()[-600:]}")
        else:
            made.append(script)
    return "by " + (" and ".join(made) or "no script")


CHECKS = {name.removeprefix("check_"): check for name, check in list(globals().items()) if name.startswith("check_")}


def main():
    """Runs the checks that are named."""
    chosen = sys.argv[1:] or list(CHECKS)
    if unknown := set(chosen) - set(CHECKS):
        sys.exit(f"style.py: no check {', '.join(sorted(unknown))}: they are {', '.join(CHECKS)}")
    needs("git", "shellcheck", "pyflakes3")
    FILES.extend(tracked())
    total = 0
    for name in chosen:
        wrong.clear()
        of = CHECKS[name]()
        for line in wrong:
            print(f"{name}: {line}")
        print(f"{name}: {of}, {len(wrong)} wrong", flush=True)
        total += len(wrong)
    for note in notes:
        print(note)
    print(
        f"style: {total} places don't keep the rules"
        if total
        else f"style: {len(chosen)} checks, and every rule is kept"
    )
    sys.exit(1 if total else 0)


if __name__ == "__main__":
    main()
