#!/usr/bin/env bash
# Follows docs/FIRST-CHANGE.md in a copy of the repository: makes each edit and runs each command in the order of the
# page, and compares what is printed with what the page shows. In the end nothing in the copy may have changed. Needs
# git, python3 and the kit, and takes some minutes.
#
#   trials/first_change.sh           the page of the repository
#   trials/first_change.sh PAGE      another page, in the same form
#
# A page has blocks of three kinds, and each is tried:
#
# - ```console: commands after `$ `, and below each what it prints on both outputs. `..` as a line means any lines, or
#   none, and as a word any text.
# - ```diff, after "In `FILE`:": a part of the file, which has it once. Lines with `-` go, and lines with `+` come.
# - ```text, after "Write `FILE`:": all of a new file.
#
# A file is named from the folder that the commands have reached.
set -eu
top=$(dirname "$(readlink -f "$0")")/..
. "$top/trials/needs.sh"
needs git python3
needs_kit
page=${1:-$top/docs/FIRST-CHANGE.md}
room=$(mktemp -d)
trap 'rm -rf "$room"' EXIT

mkdir "$room/copy"
(cd "$top" && git ls-files -z | tar --null -T - -cf -) | tar -xf - -C "$room/copy"
git -C "$room/copy" init -q
git -C "$room/copy" add -A
git -C "$room/copy" -c user.name=trial -c user.email=trial@localhost commit -q -m "The repository as it is"

python3 - "$page" "$room" <<'SCRIPT'
import re
import subprocess
import sys
from pathlib import Path

name, room = Path(sys.argv[1]).name, Path(sys.argv[2])
page = Path(sys.argv[1]).read_text(encoding="utf-8")
copy, reached = room / "copy", room / "reached"
folder = copy
# How many seconds a command may take.
PATIENCE = 900
BLOCK = re.compile(r"(?:\b(In|Write)\s`([^`\n]+)`:\n\n)?^```(\w*)\n(.*?)^```$", re.M | re.S)
KINDS = {(None, "console"), ("In", "diff"), ("Write", "text")}


def in_full(command):
    """What the command prints, line by line; and the folder that it leaves the shell in."""
    global folder
    whole = f'{command}\nstatus=$?\npwd >"{reached}"\nexit "$status"'
    try:
        ran = subprocess.run(
            ["bash", "-c", whole], cwd=folder, stdin=subprocess.DEVNULL, stdout=subprocess.PIPE,
            stderr=subprocess.STDOUT, encoding="utf-8", errors="replace", timeout=PATIENCE,
        )
    except subprocess.TimeoutExpired:
        sys.exit(f"$ {command}\nhadn't ended after {PATIENCE} seconds")
    folder = Path(reached.read_text(encoding="utf-8").rstrip("\n"))
    return [line.rstrip() for line in ran.stdout.splitlines()]


def are_shown(wanted, found):
    """Whether the page shows these lines."""
    places = {0}
    for line in wanted:
        if line == "..":
            places = set(range(min(places), len(found) + 1))
        else:
            form = ".*".join(re.escape(part) for part in re.split(r"(?<!\S)\.\.(?!\S)", line))
            places = {at + 1 for at in places if at < len(found) and re.fullmatch(form, found[at])}
        if not places:
            return False
    return len(found) in places


def run(block):
    """Runs the commands of a block, and returns how many there are."""
    commands = []
    for line in block.splitlines():
        if line.startswith("$ "):
            commands.append((line[2:], []))
        elif commands:
            commands[-1][1].append(line.rstrip())
        else:
            sys.exit(f"{name} has a block that begins with no command: {line}")
    for command, wanted in commands:
        found = in_full(command)
        if not are_shown(wanted, found):
            sys.exit("\n".join([f"$ {command}", "printed", *found, f"and {name} has", *wanted]))
    return len(commands)


def edit(file, block):
    """Makes the edit of a block."""
    lines = block.splitlines()
    odd = [line for line in lines if line[:1] not in ("", " ", "-", "+")]
    if odd:
        sys.exit(f"{name} has a line in an edit of {file} that begins with none of ' ', '-', '+': {odd[0]}")
    old = "\n" + "".join(line[1:] + "\n" for line in lines if line[:1] != "+")
    new = "\n" + "".join(line[1:] + "\n" for line in lines if line[:1] != "-")
    if not (folder / file).is_file():
        sys.exit(f"{name} edits {file}, and there is no such file")
    text = "\n" + (folder / file).read_text(encoding="utf-8")
    if text.count(old) != 1 or old == new:
        sys.exit(f"{file} has this {text.count(old)} times, and {name} edits it into the second:{old}----{new}")
    (folder / file).write_text(text.replace(old, new)[1:], encoding="utf-8")


def write(file, block):
    """Writes a new file."""
    if (folder / file).exists():
        sys.exit(f"{name} writes {file} as a new file, and there is one")
    (folder / file).parent.mkdir(exist_ok=True)
    (folder / file).write_text(block, encoding="utf-8")


blocks = [match.groups() for match in BLOCK.finditer(page)]
if len(blocks) * 2 != len(re.findall(r"^\s*```", page, re.M)):
    sys.exit(f"{name} has a block that isn't read")
commands = edits = 0
for verb, file, kind, block in blocks:
    if (verb, kind) not in KINDS:
        sys.exit(
            f"{name} has a block of another kind, {kind or 'none'} after {verb or 'neither In nor Write'}:\n{block}"
        )
    if kind == "console":
        commands += run(block)
    elif kind == "diff":
        edit(file, block)
        edits += 1
    else:
        write(file, block)
        edits += 1

if not commands or not edits:
    sys.exit(f"{name} has no command, or no edit")
left = subprocess.run(
    ["git", "status", "--porcelain"], cwd=copy, stdout=subprocess.PIPE, encoding="utf-8", check=True
).stdout
if left:
    sys.exit(f"{name} doesn't leave the repository as it was:\n{left}")
print(f"{commands} commands of {name} print what it shows, after its {edits} edits, and the repository ends as it was")
SCRIPT
