#!/usr/bin/env python3
"""Tries the records room (`room/`) in headless Chromium, over TLS and passwords, with a real `depot serve` behind a
proxy: nginx with `examples/nginx.conf`, and Caddy for what concerns the proxy. A short day is tried in WebKit too,
where Debian's webkit2gtk-driver is.

- An officer's work (room_work.py): names; deposits of plain folders, bags and forms; each file back byte for byte by
  `depot unpack`; the form of 20 bags as `depot pack` makes it; holds, refusals in words, disposal. As a control, a page
  that parses its texts as HTML, in which the checks on names and matters fail.
- Papers (room_papers.py): what is done twice, too soon or meanwhile; a new day; folders as browsers give them; what may
  not be seen or can't be read.
- Words, looks, keyboard and load (room_looks.py): each code of the documents has its sentences, and each sentence a
  code. Of each page, paper and dialog: the names in the accessibility tree, contrast, focus, widths. 700 bags and forms
  are judged as by `depot check`; then 100,000 deposits; another language, from right to left.
- Proxies (room_proxies.py): forged requests of another site, with the proxy's lines and without them; deposited pages;
  lost answers; an office that is busy, killed or closed; two offices under two prefixes.

The console of each browser is read as it ends.

Arguments: the program, by default that of the variable DEPOT, or the built one; then parts, by default all: work,
papers, looks, proxies, caddy, prefixes. ROOM names another folder of the page. SHOTS names a folder for pictures of
each view, which are looked at and kept out of the repository.

As root of Debian it installs what it needs; otherwise it prints what is missing, and ends with 3. Takes some ten
minutes.
"""
import os
import signal
import sys
import time
import traceback

import room_looks
import room_papers
import room_proxies
import room_stand as stand
import room_work
from needs import needs, needs_modules
from shared.comparing import fail
from shared.places import depot

# The proxy and the task of each part. The last part has a stand of its own for each proxy.
PARTS = {
    "work": ("nginx", room_work.work),
    "papers": ("nginx", room_papers.all_papers),
    "looks": ("nginx", room_looks.all_looks),
    "proxies": ("nginx", room_proxies.all_proxies),
    "caddy": ("caddy", room_proxies.all_caddy),
    "prefixes": (None, None),
}


def run(part, program):
    """One part, in a stand of its own."""
    there = None
    try:
        if part == "prefixes":
            for kind in ("nginx", "caddy"):
                room_proxies.prefixes(program, kind)
            return
        there = stand.Stand(program)
        kind, task = PARTS[part]
        getattr(there, kind)()
        task(there)
    except Exception:
        traceback.print_exc()
        stand.check(False, f"{part} was stopped")
        for name in ("proxy.log", "errors") if there else ():
            if (there.folder / name).exists():
                print((there.folder / name).read_text()[-600:])
    finally:
        if there:
            there.end()


def main():
    words = sys.argv[1:]
    unknown = [it for it in words[1:] if it not in PARTS]
    if unknown:
        fail(f"{unknown[0]} is none of {', '.join(PARTS)}")
    program = depot(words)
    signal.signal(signal.SIGTERM, lambda *_: sys.exit(143))  # so that all that was started is ended
    os.environ["PATH"] += ":/usr/sbin:/sbin"
    needs(*stand.TOOLS)
    needs_modules("selenium=python3-selenium")
    parts = words[1:] or list(PARTS)
    for part in parts:
        print(f"---- {part}", flush=True)
        run(part, program)
    room_looks.texts_asked_for(parts, PARTS)
    good = sum(stand.checks)
    print(f"room: {good} of {len(stand.checks)} checks, in {time.time() - stand.started:.0f} s")
    sys.exit(good != len(stand.checks))


if __name__ == "__main__":
    main()
