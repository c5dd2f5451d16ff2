#!/usr/bin/env python3
"""Speed and memory of `depot check` beside `sha256sum -c` and `sha512sum -c` on the same bytes on disk.

Prints a ratio for each case: the median time of `depot check` over that of the other run, which
take turns, in going first too. `depot` opens one file, the form, where `sha256sum -c` opens each: so
the sum of the form alone, by `sha256sum` and by `openssl dgst`, is a second ratio. Run it after
`./depot check examples/bag-a.bagset` has built the program. The arguments of `bench.py` name the cases
that are run; with none, all are.
"""
import os
import pathlib
import subprocess
import tempfile
import time

from shared.comparing import fail
from shared.forms import bag, form, lay
from shared.peaks import watched
from shared.places import DEPOT, needs_built
from turns import chosen, ratio, say_machine, spreads, turns

LIMIT = 16_777_216
RUNS = int(os.environ.get("RUNS", "15"))
BOTH = ("sha256", "sha512")


def tagged_bag(payload):
    """A bag with this payload, manifests of both algorithms, and tag manifests of both."""
    return bag(payload, BOTH, BOTH)


def write(folder, files, name):
    """Writes the files of a bag below the folder, and its form beside them."""
    base = pathlib.Path(folder) / name
    lay(base, files)
    text = pathlib.Path(folder) / (name + ".bagset")
    text.write_bytes(form(files))
    return base, text


def run(commands, cwd=None):
    """The seconds that commands take, one after the other."""
    seconds = 0
    for words in commands:
        begin = time.perf_counter()
        status = subprocess.run(words, cwd=cwd, stdout=subprocess.DEVNULL).returncode
        seconds += time.perf_counter() - begin
        if status != 0:
            fail(f"{words} ended with {status}")
    return seconds


def beside(tools, most, folder, name, files):
    """`depot check` on the form of these files beside the tools in a folder that holds the files."""
    base, text = write(folder, files, name)
    check = [str(DEPOT), "check", str(text)]
    found = turns(lambda: run([check]), lambda: run(tools, base), RUNS)
    memory = max(watched(*check)[1] for _ in range(3)) - text.stat().st_size
    named = " and then ".join(tool[0] + " -c" for tool in tools)
    print(
        f"{name}: {ratio(*found):.2f} times {named} (at most {most}; {spreads(*found)});"
        f" memory: the input and {memory / 2**20:.1f} MiB (at most 8)"
    )
    for form_tools in (of_form(tools, ["sha256sum"], text), of_form(tools, ["openssl", "dgst", "-sha256"], text)):
        found = turns(lambda: run([check]), lambda: run(form_tools), RUNS)
        named = " and then ".join(" ".join(tool[:-1]) for tool in form_tools)
        print(f"    {ratio(*found):.2f} times {named} of the form, which is one file ({spreads(*found)})", flush=True)


def of_form(tools, words, text):
    """The same digests of the form alone, one for each tool."""
    return [[it.replace("sha256", tool[0].removesuffix("sum")) for it in words] + [str(text)] for tool in tools]


SHA256SUM = [["sha256sum", "--quiet", "-c", "manifest-sha256.txt"]]
BOTH_TOOLS = [
    ["sha256sum", "--quiet", "-c", "manifest-sha256.txt", "tagmanifest-sha256.txt"],
    ["sha512sum", "--quiet", "-c", "manifest-sha512.txt", "tagmanifest-sha512.txt"],
]


def large_file(make):
    """A bag of one payload file whose form is 16 MiB long."""
    room = LIMIT - len(form(make({b"data/a": b""})))
    # The header of the content has up to seven digits more.
    return make({b"data/a": os.urandom(room - 7)})


def one_large_file(folder):
    beside(SHA256SUM, 1.1, folder, "one-large-file", large_file(bag))


def many_small_files(folder):
    payload = {b"data/%04d" % n: os.urandom(1000) for n in range(1998)}
    beside(SHA256SUM, 1.25, folder, "many-small-files", bag(payload))


def both_algorithms(folder):
    beside(BOTH_TOOLS, 1.15, folder, "both-algorithms", large_file(tagged_bag))


def both_algorithms_small_files(folder):
    payload = {b"data/%04d" % n: os.urandom(1000) for n in range(1995)}
    beside(BOTH_TOOLS, 1.15, folder, "both-algorithms-small-files", tagged_bag(payload))


def long_paths(folder):
    """1,998 paths that share 1,000 bytes, beside as many short paths with contents that make both forms equally
    long."""
    front = b"data/" + b"/".join([b"x" * 198] * 5)
    front += b"y" * (1000 - len(front))
    long = bag({front + b"/%04d" % n: b"" for n in range(1998)})
    length = len(form(long))
    small = {b"data/%04d" % n: b"" for n in range(1998)}
    each, rest = divmod(length - len(form(bag(small))), 1998)
    each -= 4
    small = {p: os.urandom(each) for p in small}
    short = bag(small)
    gap = length - len(form(short))
    small[b"data/0000"] += os.urandom(gap)
    short = bag(small)
    texts = []
    for name, files in (("long-paths", long), ("short-paths", short)):
        text = pathlib.Path(folder) / (name + ".bagset")
        text.write_bytes(form(files))
        texts.append(text)
    sizes = [text.stat().st_size for text in texts]
    long_check, short_check = [[str(DEPOT), "check", str(text)] for text in texts]
    found = turns(lambda: run([long_check]), lambda: run([short_check]), RUNS)
    print(
        f"long-paths: {ratio(*found):.2f} times short paths of an equally long form ({sizes[0]} and"
        f" {sizes[1]} bytes; at most 3; {spreads(*found)})"
    )


CASES = {
    "one-large-file": one_large_file,
    "many-small-files": many_small_files,
    "both-algorithms": both_algorithms,
    "both-algorithms-small-files": both_algorithms_small_files,
    "long-paths": long_paths,
}


def main():
    needs_built(DEPOT)
    names = chosen(CASES)
    say_machine("sha256sum", "openssl")
    with tempfile.TemporaryDirectory() as folder:
        for name in names:
            CASES[name](folder)


if __name__ == "__main__":
    main()
