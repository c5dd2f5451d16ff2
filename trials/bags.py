#!/usr/bin/env python3
"""Takes random bags with odd names through `depot pack`, `depot check`, `depot unpack` and `depot pack` again. The bags
are as the usual Python tool lays them out (RFC 8493): `bagit.txt`, `bag-info.txt`, and manifests and tag manifests of
both algorithms.

The form is compared with one that this script writes, the line of `check` with one that it works out, and the unpacked
folder with the packed one.

Arguments: the first seed and the last; by default 1 and 500. DEPOT names another program than the one in
`crates/depot/out`, which `./depot check examples/bag-a.bagset` builds.
"""
import os
import pathlib
import random
import shutil
import socket
import subprocess
import sys
import tempfile

from shared.comparing import compare, fail
from shared.forms import declaration, files_below, form, lay, manifests
from shared.places import DEPOT, needs_built

ALGORITHMS = ("sha256", "sha512")
PIECES = ["a", "b", "Z", "0", "-", "_", ".", " ", "  ", "%", "%%", "%2", "%41", "\n", "\r", "\r\n", "\t", "'", '"',
          "\\", "*", ":", "~", "\x01", "\x7f", "é", "e\u0301", "ß", "中", "\u2028", "\x85", "😀", "Ω"]


def call(*words):
    """What the program prints on standard output, and how it ends. It says why on standard error where it refuses, and
    nothing else."""
    run = subprocess.run([DEPOT, *words], capture_output=True, timeout=60)
    if bool(run.stderr) != run.stdout.startswith((b"invalid ", b"unreadable ", b"unpackable ", b"exists")):
        fail(f"{words}: {run.stderr!r}")
    return run.stdout, run.returncode


def says(line, status, *words):
    """Ends where the program says anything else."""
    compare(" ".join(map(os.fsdecode, words)), (line.encode() + b"\n", status), call(*words))


def drawn_name(draw):
    """A name in a folder: short, or as long as a file system takes it."""
    text = "".join(draw.choices(PIECES, k=draw.choice([1, 2, 3, 5, 8, 255])))
    name = text.encode()[:255].decode(errors="ignore").encode()
    return b"a" + name[:254].decode(errors="ignore").encode() if name in (b".", b"..", b"") else name


def drawn_path(draw):
    """A path of the payload, of at most 1,024 bytes."""
    path = b"data"
    for _ in range(draw.choice([1, 1, 1, 2, 3, 12])):
        longer = path + b"/" + drawn_name(draw)
        if len(longer) > 1024:
            break
        path = longer
    return path


def drawn_payload(draw, version):
    """The files of a payload, whose paths don't clash."""
    files, folders = {}, {b"data"}
    for _ in range(draw.choice([0, 1, 2, 5, 10])):
        path = drawn_path(draw)
        above = {path[:at] for at in range(len(path)) if path[at:at + 1] == b"/"}
        # In version 0.97 such a name can't be told from a coded one.
        coded = version == "0.97" and (b"%0A" in path.upper() or b"%0D" in path.upper())
        if coded or path in folders or above & files.keys() or path == b"data":
            continue
        folders |= above
        files[path] = draw.randbytes(draw.choice([0, 1, 10, 1000, 100_000]))
    return files


def drawn_bag(draw):
    """A bag, its version and its payload."""
    version = draw.choice(["0.97", "1.0"])
    payload = drawn_payload(draw, version)
    oxum = f"{sum(map(len, payload.values()))}.{len(payload)}"
    tags = {
        b"bagit.txt": declaration(version),
        b"bag-info.txt": f"Bag-Software-Agent: a test\nBagging-Date: 2024-03-01\nPayload-Oxum: {oxum}\n".encode(),
    }
    tags |= manifests(ALGORITHMS, payload, version)
    if draw.random() < 0.3:
        tags[b"notes/.hidden " + drawn_name(draw).replace(b"%", b"")[:200].decode(errors="ignore").encode()] = b"x"
    return {**payload, **tags, **manifests(ALGORITHMS, tags, version, b"tag")}, version, payload


def lay_drawn(folder, files, draw):
    """Writes the files below the folder, in any order, beside an empty folder."""
    paths = list(files)
    draw.shuffle(paths)
    os.makedirs(os.path.join(folder, b"data", b"empty folder"))
    lay(folder, {path: files[path] for path in paths})


def read(path):
    return pathlib.Path(os.fsdecode(path)).read_bytes()


def go_round(seed, folder):
    """One bag through the program. Gives its number of files."""
    draw = random.Random(seed)
    files, version, payload = drawn_bag(draw)
    here, text, there, again = (os.path.join(folder, name) for name in (b"here", b"text", b"there", b"again"))
    lay_drawn(here, files, draw)
    whole = form(files)
    says(f"packed {len(files)} files {len(whole)} bytes", 0, "pack", here, text)
    compare(f"seed {seed}: the form", whole, read(text))
    size = sum(map(len, payload.values()))
    says(f"valid {version} files {len(payload)} bytes {size} manifests 4", 0, "check", text)
    says(f"unpacked {len(files)} files", 0, "unpack", text, there)
    compare(f"seed {seed}: what was unpacked", files, files_below(there))
    says(f"packed {len(files)} files {len(whole)} bytes", 0, "pack", there, again)
    compare(f"seed {seed}: the form of what was unpacked", whole, read(again))
    says("exists", 1, "unpack", text, there)
    return len(files)


def refused(folder):
    """Folders with an entry that has no place in a form. Gives how many there are."""
    out = os.path.join(folder, b"out")

    def listens(path):
        with socket.socket(socket.AF_UNIX) as server:
            server.bind(path)

    no_text, no_file = b"has a name that is not UTF-8", b"is neither a file nor a folder, such as a link"
    makers = {
        "a name that is no UTF-8": (lambda path: open(path + b"\xff", "wb").close(), b"?", no_text),
        "a folder's name that is no UTF-8": (lambda path: os.mkdir(path + b"\xc3\x28"), b"?", no_text),
        "a link": (lambda path: os.symlink("nowhere", path), b"x", no_file),
        "a link to a folder": (lambda path: os.symlink(".", path), b"x", no_file),
        "a pipe": (os.mkfifo, b"x", no_file),
        "a socket": (listens, b"x", no_file),
    }
    for name, (make, printed, cause) in makers.items():
        odd = os.path.join(folder, b"odd")
        os.makedirs(os.path.join(odd, b"deep"))
        # This alone is S8.
        open(os.path.join(odd, b"data"), "wb").close()
        make(os.path.join(odd, b"deep", b"x"))
        told = b"the entry deep/%s of the folder %s (NAME)\n" % (printed, cause)
        run = subprocess.run([DEPOT, "pack", odd, out], capture_output=True, timeout=60)
        found = run.stdout, run.stderr, run.returncode, os.path.exists(out)
        compare(name, (b"unpackable NAME\n", told, 1, False), found)
        shutil.rmtree(odd)
    return len(makers)


def main():
    first, last = (int(word) for word in (sys.argv[1:3] + ["1", "500"][len(sys.argv) - 1:]))
    needs_built(DEPOT)
    count = 0
    for seed in range(first, last + 1):
        with tempfile.TemporaryDirectory() as folder:
            count += go_round(seed, os.fsencode(folder))
    with tempfile.TemporaryDirectory() as folder:
        odd = refused(os.fsencode(folder))
    print(f"seeds {first} to {last}: {last + 1 - first} bags of {count} files packed, checked, unpacked and packed "
          f"again: the same bytes; {odd} folders refused for an entry")


if __name__ == "__main__":
    main()
