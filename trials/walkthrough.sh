#!/usr/bin/env bash
# Runs every command of README.md that follows `$ ` in a block of ```console, in the order of the page and in one shell,
# in an empty folder with the examples. What each prints, on both outputs, must be the lines below it. A command that
# ends with `&` has a minute to print its lines, and must end within a minute of the last command. It is `serve`, which
# then says that it ended after its connections, and nothing else. Each of the two first looks takes some minutes.
# Argument: the program; if left out, that of DEPOT, or the repository's own.
set -eu
top=$(readlink -f "$(dirname "$(readlink -f "$0")")/..")
. "$top/trials/needs.sh"
. "$top/trials/processes.sh"
needs curl python3
needs_kit
needs_program "$@"
make_room
# (where it is the repository's own, the page's `./depot` is that script)
[ "$program" != "$(readlink -f "$top/crates/depot/out/depot-program")" ] || program=$top/depot
cp -a "$top/examples" "$room/examples"
ln -s "$program" "$room/depot"
ln -s "$top/first-look" "$room/first-look"

python3 - "$top/README.md" "$room" <<'SCRIPT'
import os
import re
import signal
import subprocess
import sys
from pathlib import Path

page, room = Path(sys.argv[1]).read_text(encoding="utf-8"), sys.argv[2]
MARK = "--- end of command ---"
# How many seconds all commands together may take.
PATIENCE = 1800
# What `serve` says last.
ENDED = "depot: serving ended after the connections that were asked for: "
# Waits until a command in the background has printed this number of lines, and prints them.
BEGUN = """begun() {
    local end=$((SECONDS + 60))
    until [ "$(wc -l <"$1")" -ge "$2" ] || [ "$SECONDS" -ge "$end" ]; do sleep 0.05; done
    cat "$1"
}"""
# Waits until no command runs in the background, and lists those that still do. So does a command that is to run there,
# since it may need what the one before it has open.
OVER = """over() {
    local end=$((SECONDS + 60))
    while [ -n "$(jobs -r)" ] && [ "$SECONDS" -lt "$end" ]; do sleep 0.05; done
    jobs -r
}"""

commands = []
for block in re.findall(r"^ *```console\n(.*?)^ *```$", page, re.M | re.S):
    for line in block.splitlines():
        line = line.strip()
        if line.startswith("$ "):
            commands.append((line[2:], []))
        elif commands and commands[-1][0].endswith("\\"):
            commands[-1] = (commands[-1][0][:-1] + line, [])
        else:
            commands[-1][1].append(line)

lines, served = [BEGUN, OVER], []
for number, (command, wanted) in enumerate(commands):
    if command.endswith("&"):
        # What it prints goes to a file, so that nothing waits for its end to read it.
        said = f"{room}/said-{number}"
        served.append((said, command, [*wanted, ENDED + command.split("--count ")[1].split()[0]]))
        command = f"over\n{{ {command}\n}} >{said} 2>&1\nbegun {said} {len(wanted)}"
    lines += [command, f"echo '{MARK}'"]
lines.append("over")

shell = subprocess.Popen(
    ["bash"], stdin=subprocess.PIPE, stdout=subprocess.PIPE, stderr=subprocess.STDOUT, cwd=room, text=True,
    start_new_session=True,
)
try:
    found, _ = shell.communicate("\n".join(lines) + "\n", timeout=PATIENCE)
except subprocess.TimeoutExpired:
    os.killpg(shell.pid, signal.SIGKILL)
    ended = shell.communicate()[0].count(MARK)
    sys.exit(f"$ {commands[ended][0]}\nhadn't ended {PATIENCE} seconds after the first command began")
try:
    os.killpg(shell.pid, signal.SIGKILL)
except ProcessLookupError:
    pass



def printed_as_wanted(command, wanted, found):
    """Ends the script where a command printed other lines; empty ones don't count."""
    said = [line.strip() for line in found.splitlines()]
    if [line for line in said if line] != [line for line in wanted if line]:
        sys.exit(f"$ {command}\nprinted\n{found}\nand this is wanted:\n" + "\n".join(wanted))


*printed, left = [part.strip("\n").replace("\r", "") for part in found.split(MARK + "\n")]
if len(printed) != len(commands):
    sys.exit(f"{len(commands)} commands are wanted, and the shell ended after {len(printed)}: {left}")
for (command, wanted), found in zip(commands, printed):
    printed_as_wanted(command, wanted, found)
if left:
    sys.exit(f"a minute after the last command this went on: {left}")
for said, command, wanted in served:
    printed_as_wanted(command, wanted, Path(said).read_text(encoding="utf-8"))
print(f"walkthrough: {len(commands)} commands of README.md print what the page says")
SCRIPT
