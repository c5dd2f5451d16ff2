#!/usr/bin/env python3
"""Speed and memory of `depot pack` and `depot unpack` beside `tar`.

`pack` is measured beside `tar -cf`, and beside `tar -cf` and `sync` of what it wrote, since `pack` brings
its file to the disk; `unpack` beside `tar -xf`. Prints the ratios of each case: the median time of `depot`
over that of the other, which take turns (RUNS=n, 15 if left out), in going first too. BESIDE=PROGRAM measures
time and memory beside another `depot` instead. Run it after `./depot check examples/bag-a.bagset` has built the
program. The arguments of `pack.py` name the cases that are run; with none, all are.
"""
import os
import pathlib
import shutil
import tempfile

import bench
from shared.comparing import fail
from shared.forms import bag
from shared.peaks import watched
from shared.places import DEPOT, needs_built
from turns import BESIDE, OTHER, chosen, ratio, say, say_machine, say_memory, spreads, turns


def cleared(clear, commands):
    """The seconds that commands take once what was written before is gone, or is on the disk."""
    clear()
    os.sync()
    return bench.run(commands)


class RoundTrip:
    """A folder with these files that is packed, and the form of it that is unpacked."""

    def __init__(self, folder, name, files):
        self.folder, self.name = pathlib.Path(folder), name
        self.base, self.form = bench.write(folder, files, name)
        self.packed, self.archive = self.folder / f"{name}.packed", self.folder / f"{name}.tar"
        self.unpacked, self.other = self.folder / f"{name}-unpacked", self.folder / f"{name}-other"
        self.size = self.form.stat().st_size

    def clear(self):
        for made in (self.unpacked, self.other):
            shutil.rmtree(made, ignore_errors=True)
        self.other.mkdir()

    def turns(self, ours, theirs):
        """What `depot` and the other commands take in turns, each once what was written before is gone."""
        return turns(lambda: cleared(self.clear, [ours]), lambda: cleared(self.clear, theirs), bench.RUNS)

    def beside(self, verb, words_of):
        """What `depot` and another build of it take in turns, in microseconds, and how much memory."""
        took = lambda program: cleared(self.clear, [words_of(program)]) * 1e6

        def peak(program):
            self.clear()
            return watched(*words_of(program))[1]

        found = turns(lambda: took(DEPOT), lambda: took(BESIDE), bench.RUNS)
        say(f"{verb} {self.name}", 1, *found, OTHER)
        say_memory(f"{verb} {self.name}, peak memory", peak, DEPOT, bench.RUNS)

    def holds_the_form(self):
        """Ends the script where what was packed is another form."""
        if self.packed.read_bytes() != self.form.read_bytes():
            fail(f"{self.name}: another form")

    def pack(self):
        words_of = lambda program: [str(program), "pack", str(self.base), str(self.packed)]
        if BESIDE:
            self.beside("pack", words_of)
            self.holds_the_form()
            return
        pack = words_of(DEPOT)
        tar = ["tar", "-cf", str(self.archive), "-C", str(self.base), "."]
        plain = self.turns(pack, [tar])
        synced = self.turns(pack, [tar, ["sync", str(self.archive)]])
        self.holds_the_form()
        memory = max(watched(*pack)[1] for _ in range(3)) - self.size
        print(
            f"pack {self.name}: {ratio(*plain):.2f} times tar -cf (at most 1.5; {spreads(*plain)}), and"
            f" {ratio(*synced):.2f} times tar -cf and sync (at most 1.15; {spreads(*synced)});"
            f" memory: the form and {memory / 2**20:.1f} MiB (at most 8)",
            flush=True,
        )

    def unpack(self):
        words_of = lambda program: [str(program), "unpack", str(self.packed), str(self.unpacked)]
        if BESIDE:
            self.beside("unpack", words_of)
            return
        unpack = words_of(DEPOT)
        found = self.turns(unpack, [["tar", "-xf", str(self.archive), "-C", str(self.other)]])
        self.clear()
        memory = watched(*unpack)[1] - self.size
        print(
            f"unpack {self.name}: {ratio(*found):.2f} times tar -xf (at most 2; {spreads(*found)});"
            f" memory: the form and {memory / 2**20:.1f} MiB (at most 8)",
            flush=True,
        )


def round_trip(folder, name, files):
    it = RoundTrip(folder, name, files)
    it.pack()
    it.unpack()


def one_large_file(folder):
    round_trip(folder, "one-large-file", bench.large_file(bag))


def many_small_files(folder):
    payload = {b"data/%04d" % n: os.urandom(1000) for n in range(1998)}
    round_trip(folder, "many-small-files", bag(payload))


CASES = {"one-large-file": one_large_file, "many-small-files": many_small_files}


def main():
    needs_built(DEPOT)
    names = chosen(CASES)
    say_machine("tar", "sync")
    with tempfile.TemporaryDirectory() as folder:
        for name in names:
            CASES[name](folder)


if __name__ == "__main__":
    main()
