#!/usr/bin/env python3
"""Makes the man page and the completions for bash from what `depot --help` and `depot COMMAND --help` print, and
compares them with docs/depot.1 and docs/depot.bash, byte for byte. So each command, option and sentence of the help is
in the page. The page also has texts of this script: the transfer form, the exit statuses, the files and some examples.
A packed folder is compared with the form, a run shows each status, and each example is run. `man` sets the page without
a warning, and shows each sentence of the help. bash completes some words by the file.

Argument: the program; without it that of the variable DEPOT, or `depot` of the repository. With --write before it both
files are written, and not compared. Needs man, groff and curl.
"""

import os
import re
import shutil
import signal
import socket
import subprocess
import sys
import tempfile
from pathlib import Path

from needs import needs

TOP = Path(__file__).resolve().parent.parent
PAGE, COMPLETIONS = TOP / "docs/depot.1", TOP / "docs/depot.bash"
# What a man page needs besides the help. First what a form is: `form_of` makes one by these words. LIMITS has its
# limits.
LIMITS = TOP / "crates/bag_text/src/transfer.rt"
FORM = """\
A bag travels as one file, its transfer form. depot pack writes the form of a folder, and depot unpack makes the \
folder again.
A form begins with the line BAGSET 1.
For each file, ascending by path, it has a line FILE P C, then the P bytes of the path, the C bytes of the content \
and a line
feed.
It ends with the line END.
It has at most MAX_FORM bytes and MAX_FILES files. Copy it byte for byte.
depot pack doesn't judge the bag, and packs a folder without bagit.txt too. depot check judges it.
"""
FILES = [
    ("STORE", "The office, an SQLite database. Only depot may write it."),
    ("STORE-wal", "Its log, which may have the newest changes. Never move or remove one of the two without the other."),
    (".depot-pack-N", "What a depot pack that was killed may leave in the folder of FILE."),
]
# Each example with its commands and their output. They are run in turn, in a folder with a bag `letters` and a policy,
# and with a free port in place of PORT.
PORT = "8080"
EXAMPLES = [
    (
        "A bag is packed and checked:",
        [
            ("depot pack letters letters.bagset", ["packed 3 files 210 bytes"]),
            ("depot check letters.bagset", ["valid 1.0 files 1 bytes 3 manifests 1"]),
        ],
    ),
    (
        "A request is explained:",
        [
            ("depot explain policy.toml anna dispose maps y1", ["allow rule 2"]),
            (
                "depot explain policy.toml carl dispose maps y1",
                ["deny default", "no rule of the policy matches, so it is denied by default"],
            ),
        ],
    ),
    (
        "An office is made, and served on a day. A proxy names the caller; here curl does:",
        [
            ("depot policy office.db policy.toml", ["installed 3 rules 2 callers"]),
            (f"depot serve --port {PORT} --count 1000000 office.db 2024-03-01 &", [f"listening {PORT}"]),
            (
                f"curl -s -w '\\n' -H 'Depot-Caller: anna' http://127.0.0.1:{PORT}/due",
                ['{"day":"2024-03-01","deposits":[]}'],
            ),
        ],
    ),
    (
        "It is stopped and backed up. Where depot ask ends with status 0, the log is in the file:",
        [
            ("kill $!; wait $!", []),
            ("depot ask office.db 2024-03-01 </dev/null >/dev/null && cp office.db backup.db", []),
        ],
    ),
]
# Each status by a run that ends with it, and what it means.
STATUSES = [
    (
        0,
        ["check", "examples/bag-a.bagset"],
        "The command did what was asked. Where it answers yes or no, the answer is yes.",
    ),
    (1, ["check", "examples/policy.toml"], "The answer is no, or the input is refused. Standard error says why."),
    (2, ["check"], "The arguments are invalid, or ask for help. Standard error has the text."),
    (
        3,
        ["check", "examples/none"],
        "The store, a file, a port or memory failed. Standard error says which, and what was tried.",
    ),
]


def fail(text):
    sys.exit(f"manual: {text}")


def help_of(program, *words):
    """What the program says of how it is used: on standard error, with status 2."""
    ran = subprocess.run([program, *words, "--help"], capture_output=True, text=True, timeout=60)
    if ran.returncode != 2 or ran.stdout:
        fail(f"{' '.join(words)} --help: status 2 and nothing on standard output are wanted, and this came: {ran}")
    return ran.stderr


def read_help(text):
    """The help of a command: what it does, its words and its options, each with what is said of it."""
    about, usage, *blocks = text.rstrip("\n").split("\n\n")
    parts = {"Arguments": [], "Options": []}
    for block in blocks:
        title, *lines = block.split("\n")
        for line in lines:
            entry = re.fullmatch(r" +(\S+(?:,? \S+)*) {2,}(\S.*)", line)
            if title[:-1] not in parts or not entry:
                fail(f"this of the help can't be read: {block}")
            parts[title[:-1]].append((entry[1], entry[2]))
    if not usage.startswith("Usage: depot "):
        fail(f"this of the help can't be read: {usage}")
    return {"about": about, "usage": usage.removeprefix("Usage: "), **parts}


def escaped(text):
    """A text as roff has it, within a line."""
    return text.replace("\\", "\\e").replace("-", "\\-")


def typed(text):
    """A line of an example: each sign as it is typed."""
    return escaped(text).replace("'", "\\(aq")


def file_name(text):
    """The name of a file: placeholders are italic."""
    return "".join(
        f"\\f{'I' if part.isupper() else 'B'}{escaped(part)}\\fR" for part in re.split("([A-Z]+)", text) if part
    )


def marked(text):
    """A usage or an entry: what is typed as shown is bold, and placeholders are italic."""
    words = re.split(r"([\w-]+)", text.replace("<", "").replace(">", ""))
    return "".join(
        f"\\f{'I' if word.isupper() else 'B'}{escaped(word)}\\fR" if re.match(r"[\w-]", word) else word
        for word in words
    )


def form_text():
    """What the page says of a form, with its limits as the source has them."""
    numbers = dict(re.findall(r"pub const (MAX_FORM|MAX_FILES): \w+ = ([0-9_]+);", LIMITS.read_text(encoding="utf-8")))
    if len(numbers) != 2:
        fail(f"the limits of a form can't be found in {LIMITS.relative_to(TOP)}")
    return re.sub("MAX_[A-Z]+", lambda name: f"{int(numbers[name[0]]):,}", FORM)


def page_of(overall, helps):
    """The man page."""
    usage, more = overall.rstrip("\n").split("\n\n")
    version, *uses = usage.split("\n")
    calls = [line.removeprefix("Usage: ").strip() for line in uses]
    for_what, *rest = more.split("\n")
    lines = [
        '.\\" Made of what `depot --help` says, by trials/manual.py: change it there, and not here.',
        f'.TH DEPOT 1 "" "{escaped(version)}"',
        ".SH NAME",
        f"depot \\- {escaped(for_what.removeprefix('Depot ').rstrip('.'))}",
        ".SH SYNOPSIS",
        ".nf",
        *map(marked, calls),
        ".fi",
        ".SH DESCRIPTION",
        *map(escaped, [for_what, *rest]),
        ".SH COMMANDS",
    ]
    common = set.intersection(*(set(it["Options"]) for it in helps.values()))
    for call in calls:
        it = helps[call.split()[1]]
        lines += [f".SS {marked(call)}", escaped(it["about"])]
        for entry, said in it["Arguments"] + [one for one in it["Options"] if one not in common]:
            lines += [".TP", marked(entry), escaped(said)]
    lines += [".SH OPTIONS", "Each command has:"]
    for entry, said in sorted(common):
        lines += [".TP", marked(entry), escaped(said)]
    lines += [".SH TRANSFER FORM", *map(escaped, form_text().splitlines())]
    lines += [".SH EXIT STATUS"]
    for status, _, meaning in STATUSES:
        lines += [".TP", f"\\fB{status}\\fR", escaped(meaning)]
    lines += [".SH FILES"]
    for name, meaning in FILES:
        lines += [".TP", file_name(name), escaped(meaning)]
    lines += [".SH EXAMPLES"]
    for about, commands in EXAMPLES:
        lines += [".PP", escaped(about), ".PP", ".RS 4", ".nf"]
        for command, printed in commands:
            lines += [f"$ \\fB{typed(command)}\\fR", *map(typed, printed)]
        lines += [".fi", ".RE"]
    return "\n".join(lines) + "\n"


def completions_of(helps):
    """What bash completes: the commands, their options, and names of files for all else."""
    lines = [
        "# Completions for bash, made of what `depot --help` says, by trials/manual.py: change it there, and not here.",
        "# shellcheck shell=bash",
        "_depot() {",
        "    local word=${COMP_WORDS[COMP_CWORD]} options=",
        "    COMPREPLY=()",
        '    if [ "$COMP_CWORD" -eq 1 ]; then',
        f"        mapfile -t COMPREPLY < <(compgen -W '{' '.join(helps)}' -- \"$word\")",
        "        return",
        "    fi",
        "    case ${COMP_WORDS[1]} in",
    ]
    for name, it in helps.items():
        options = " ".join(re.search(r"--[\w-]+", entry)[0] for entry, _ in it["Options"])
        lines.append(f"    {name}) options='{options}' ;;")
    lines += [
        "    *) ;;",
        "    esac",
        "    if [[ $word == -* ]]; then",
        '        mapfile -t COMPREPLY < <(compgen -W "$options" -- "$word")',
        "    fi",
        "}",
        "complete -o default -F _depot depot",
    ]
    return "\n".join(lines) + "\n"


def set_page():
    """The page as `man` prints it, in long lines, and each run of blanks as one."""
    with tempfile.TemporaryFile() as errors:
        groff = ["groff", "-man", "-ww", "-Tutf8", "-rLL=2000n", "-P-cbou", str(PAGE)]
        text = subprocess.run(groff, stdout=subprocess.PIPE, stderr=errors, check=True).stdout.decode()
        errors.seek(0)
        if warnings := errors.read().decode():
            fail(f"groff warns of the page: {warnings}")
    shown = subprocess.run(["man", "-l", str(PAGE)], capture_output=True, text=True, check=False)
    if shown.returncode != 0 or shown.stderr or "SYNOPSIS" not in shown.stdout:
        fail(f"man can't show the page: {shown.stderr}")
    return " ".join(text.split())


def sentences(overall, helps):
    """Each line of the usage, and each sentence, word and option of the helps."""
    for line in overall.splitlines():
        if line:
            yield line.removeprefix("Usage: ").strip()
    for it in helps.values():
        yield it["about"]
        for entry, said in it["Arguments"] + it["Options"]:
            yield re.sub(r"[<>]", "", entry) + " " + said


def completed(*words):
    """What bash completes of these words, by the file: the last one is under way."""
    script = 'source "$0"; COMP_WORDS=("$@"); COMP_CWORD=$(($# - 1)); _depot; echo "${COMPREPLY[*]}"; complete -p depot'
    ran = subprocess.run(["bash", "-euc", script, COMPLETIONS, *words], capture_output=True, text=True, check=True)
    reply, registered = ran.stdout.splitlines()
    if registered != "complete -o default -F _depot depot" or ran.stderr:
        fail(f"the completions can't be loaded: {ran}")
    return reply.split()


def form_of(folder):
    """The form of a folder, by the words of the page."""
    files = sorted(
        (os.fsencode(file.relative_to(folder)), file.read_bytes()) for file in folder.rglob("*") if file.is_file()
    )
    entries = (b"FILE %d %d\n%s%s\n" % (len(path), len(content), path, content) for path, content in files)
    return b"BAGSET 1\n" + b"".join(entries) + b"END\n"


def printed_by(commands, room):
    """What bash prints for each command, on both outputs, with the program of this folder on the PATH."""
    mark, script = "--- end of command ---", []
    for command, _ in commands:
        if command.endswith("&"):
            # Its first output is awaited. A file takes it, so that nobody waits for the command's end to read it.
            command = f"{command[:-1]}>begun 2>&1 &\nuntil [ -s begun ] || ! kill -0 $!; do sleep 0.05; done; cat begun"
        script += [command, f"echo '{mark}'"]
    shell = subprocess.Popen(
        ["bash", "-c", "\n".join(script)],
        stdin=subprocess.DEVNULL,
        stdout=subprocess.PIPE,
        stderr=subprocess.STDOUT,
        cwd=room,
        env={**os.environ, "PATH": f"{room}/bin:{os.environ['PATH']}"},
        text=True,
        start_new_session=True,
    )
    try:
        said, _ = shell.communicate(timeout=60)
    except subprocess.TimeoutExpired:
        os.killpg(shell.pid, signal.SIGKILL)
        fail(f"the examples hadn't ended after a minute: {shell.communicate()[0]}")
    # (Bash itself reports the office that was stopped.)
    return [
        [line for line in part.splitlines() if line and not re.match(r"bash: line \d+: +\d+ Terminated ", line)]
        for part in said.split(mark + "\n")[:-1]
    ]


def run_examples(program):
    """Runs each example, and compares what it prints, and the form that it makes."""
    with socket.socket() as unused, tempfile.TemporaryDirectory() as name:
        room = Path(name)
        (room / "bin").mkdir()
        (room / "bin/depot").symlink_to(program)
        shutil.copy(TOP / "examples/policy.toml", room)
        subprocess.run(
            [program, "unpack", TOP / "examples/bag-a.bagset", room / "letters"], stdout=subprocess.DEVNULL, check=True
        )
        unused.bind(("127.0.0.1", 0))
        port = str(unused.getsockname()[1])
        unused.close()
        commands = [
            (command.replace(PORT, port), [line.replace(PORT, port) for line in wanted])
            for _, example in EXAMPLES
            for command, wanted in example
        ]
        found = printed_by(commands, room)
        for (command, wanted), lines in zip(commands, found):
            if lines != wanted:
                fail(f"$ {command}\nthe page has {wanted}, and this came: {lines}")
        if len(found) != len(commands):
            fail(f"{len(commands)} commands of examples are wanted, and {len(found)} were run")
        if (room / "letters.bagset").read_bytes() != form_of(room / "letters"):
            fail("what pack writes isn't the form that the page describes")
        if not (room / "backup.db").stat().st_size:
            fail("the backup is empty")
    return len(commands)


def main():
    needs("man=man-db", "groff", "curl")
    words = sys.argv[1:]
    is_write = words[:1] == ["--write"]
    program = os.path.abspath((words[is_write:] or [os.environ.get("DEPOT", TOP / "depot")])[0])
    overall = help_of(program)
    names = re.findall(r"^(?:Usage:|      ) depot (\w+)", overall, re.M)
    helps = {name: read_help(help_of(program, name)) for name in names}
    made = {PAGE: page_of(overall, helps), COMPLETIONS: completions_of(helps)}
    for file, text in made.items():
        if is_write:
            file.write_text(text, encoding="utf-8")
        elif not file.exists() or file.read_text(encoding="utf-8") != text:
            fail(f"{file.relative_to(TOP)} isn't what --help says: trials/manual.py --write makes it anew")

    page, looked_for = set_page(), 0
    for sentence in sentences(overall, helps):
        if " ".join(sentence.split()) not in page:
            fail(f"the page as it is shown lacks this of the help: {sentence}")
        looked_for += 1
    for status, call, _ in STATUSES:
        found = subprocess.run([program, *call], cwd=TOP, capture_output=True, timeout=60).returncode
        if found != status:
            fail(f"{' '.join(call)}: the page says status {status}, and this came: {found}")
    tried = 0
    for name, it in helps.items():
        options = [re.search(r"--[\w-]+", entry)[0] for entry, _ in it["Options"]]
        for given, wanted in [
            (["depot", ""], names),
            (["depot", name[:-1]], [other for other in names if other.startswith(name[:-1])]),
            (["depot", name, "-"], options),
            (["depot", name, options[0][:-1]], options[:1]),
            (["depot", name, "a"], []),
        ]:
            if completed(*given) != wanted:
                fail(f"{given} is to be completed to {wanted}, and this came: {completed(*given)}")
            tried += 1
    ran = run_examples(program)
    print(
        f"manual: {len(names)} commands, {looked_for} sentences in the page as it is shown, {tried} words completed by"
        f" bash, {ran} commands of examples run"
    )


main()
