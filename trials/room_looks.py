"""Part of room.py: the page's words, its looks, its use by keyboard and screen reader, its rules for bags, and its
load."""
import base64
import hashlib
import json
import os
import random
import re
import subprocess
import sys
import time

import bags
from room_stand import ROOM, asked, check, lacking, say
from room_work import BAG, DECLARED, ENTER, ESCAPE, folder
from shared.forms import bag
from shared.forms import form as transfer_form
from shared.places import TOP

TAB, SHIFT = "\ue004", "\ue008"
PAGES = {
    "deposits": "Deposits",
    "soon": "Due soon",
    "deposit/2": "Deposit 2",
    "new": "New deposit",
    "due": "Due today",
    "holds": "Holds",
    "names": "Collections and classes",
}
# What a page says itself, beside the names of documents and proxies: no answer, and an answer that it doesn't know.
OWN = {"Offline", "Other"}


def form(files):
    """A bag's transfer form: of these files, or of a payload of these."""
    if "bagit.txt" not in files:
        files = bag({b"data/" + path.encode(): content for path, content in files.items()})
    return transfer_form(files)


def seed(stand):
    """Collections, classes, eight deposits and two holds."""
    for name in ("maps", "tax", "parish-registers"):
        stand.json("PUT", f"/collections/{name}")
    for name, years in (("y0", 0), ("y10", 10), ("good", None)):
        stand.json("PUT", f"/classes/{name}", {"years": years})
    for i in range(6):
        files = {f"letter {k:02}.txt": b"x" * (i * 100 + k) for k in range(3 + i)}
        stand.deposited(
            form({**files, "survey of the harbour, sheet four, coloured.tif": b"y" * 2500}),
            f"2024-{i + 1:03}",
            collection=("maps", "parish-registers")[i % 2],
            class_=("y0", "y10", "good")[i % 3],
            closed=f"2024-0{1 + i % 2}-{10 + i}",
        )
    evil = (
        b"<script>document.title='pwned';"
        b"fetch('/holds',{method:'POST',body:'{\"class\":\"y0\",\"matter\":\"evil\"}'})</script>"
    )
    stand.deposited(form({"evil.html": evil}), "PAGE")
    stand.deposited(form({"a": b"a"}), "KEYS")
    stand.json(
        "POST", "/holds", {"collection": "parish-registers", "matter": "Enquiry 12/2024: boundary of the parish"}
    )
    stand.json("POST", "/holds", {"deposit": 1, "matter": "Case 7"})


# ---- words


def all_words():
    code = f"import words from '{ROOM}/words.js'; console.log(JSON.stringify(words))"
    return json.loads(
        subprocess.run(["node", "--input-type=module", "-e", code], capture_output=True, text=True, check=True).stdout
    )


def documented():
    """The faults of BAGS.md; and the refusals of HTTP.md and of both proxies."""
    bags_page, http = ((TOP / "docs" / name).read_text() for name in ("BAGS.md", "HTTP.md"))
    faults = set(re.findall(r"^\|`?([VLISB]\d+|SIZE|NAME)\b", bags_page, re.M)) - {
        "B2",
        "B6",
        "B13",
    }  # (these three are shown by the codes of V, L and I)
    refusals = set(re.findall(r'"error":"(\w+)"', http)) | set(
        re.findall(r"^\|[ 1-7]*\| \d{3} \| `(\w+)` \|", http, re.M)
    )
    for name in ("nginx.conf", "Caddyfile"):
        refusals |= set(
            re.findall(r"^\s+(?:\d+|default|~\S+) +([A-Z]\w+);?$", (TOP / "examples" / name).read_text(), re.M)
        )
    return faults, refusals


def words(said):
    """Each code of the documents has its sentences, and each sentence a code; and each text that is asked for is
    there."""
    faults, refusals = documented()
    drift = faults ^ (set(said["fault"]) - {"other"})
    check(len(faults) >= 42 and not drift, f"the page has exactly the {len(faults)} faults of BAGS.md {sorted(drift)}")
    drift = refusals ^ ({key.split(" ")[0] for key in said["refusal"]} - OWN)
    check(
        len(refusals) > 30 and not drift,
        f"and exactly the {len(refusals)} refusals of HTTP.md and of both proxies {sorted(drift)}",
    )
    poor = [
        key
        for kind in ("refusal", "fault")
        for key, it in said[kind].items()
        if len(it) != 2 or not all(it) or not it[1].endswith(".")
    ]
    check(not poor, f"each says what it is, and what to do {poor}")
    code = "".join(it.read_text() for it in ROOM.glob("*.js") if it.name != "words.js")
    named = set(re.findall(r"\bwords\.(?!js\b)(\w+)", code))
    for words_ in re.findall(r"\b(?:t|nodes|field|button|notify|tick)\(([^(){}]*)", code):
        named |= set(re.findall(r'(?:^|\? |: )"(\w+)"', words_))
    check(
        len(named) > 100 and not named - set(said),
        f"each of {len(named)} texts asked for by name is there {named - set(said)}",
    )


def texts_asked_for(parts, all_parts):
    """Of all parts: each text that a page asked for by name is in words.js, and each text there was asked for."""
    check(not lacking, f"no page asked for a text that isn't there {sorted(lacking)}")
    unasked = sorted(set(all_words()) - asked)
    if set(parts) == set(all_parts):
        check(not unasked, f"each of {len(asked)} texts was asked for by name {unasked}")
    else:
        say(f"not asked for by these parts: {', '.join(unasked)}")


def page_itself():
    """Its length, and that it is all here."""
    files = {it.name: it.read_text() for it in ROOM.glob("*.[chjs]*")}
    long = [
        (name, i + 1)
        for name, text in files.items()
        for i, line in enumerate(text.splitlines())
        if len(line) > 120
    ]
    lines = sum(len(text.splitlines()) for text in files.values())
    check(lines <= 1500 and not long, f"the page has {lines} lines, of at most 120 columns {long[:3]}")
    outside = [
        it
        for name, text in files.items()
        if name not in ("words.js", "icon.svg")
        for it in re.findall(r"https?://[\w./-]+", text)
    ]
    check(not outside, f"and names no other origin {outside}")


def refusals_in_words(page, said):
    """Each refusal and each fault as the page shows it: no hole, names decoded, and the rule, the matter or the day in
    it."""
    faults = [
        "B17 manifest-sha256.txt data/a%20b%C3%A9",
        "B2 V3",
        "B6 manifest-sha256.txt L3 5",
        "B13 I3 4",
        "S2 17",
        "S3",
        "B4 manifest-md5.txt",
        "B99 x y",
        "B17 %ZZ <b>",
        *(f"{key} a b" for key in said["fault"]),
    ]
    shown = shown_by_page(page, list(said["refusal"]), faults)
    holes = [it for it in shown.values() if "{" in it or "undefined" in it or "null" in it or "What to do:" not in it]
    check(
        len(shown) == len(said["refusal"]) + len(set(faults)) and not holes,
        f"{len(shown)} refusals are shown without a hole {holes[:2]}",
    )
    wrong = [(key, shown[key]) for key, part in SAID.items() if part not in shown[key]]
    check(not wrong, f"each has its rule, its matter, its day, its number and its names {wrong[:2]}")


# What some refusals say.
SAID = {
    "Denied": "Rule 6",
    "Held matter": "Hold 5 forbids it: “Case <7>”",
    "NotDue": "2025-01-01",
    "Gone": "2024-03-01",
    "Taken": "Deposit 4",
    "Taken altered": "can't be compared",
    "Store altered": "An audit mostly says which file",
    "ClosedAhead": "2024-03-01",
    "Closed": "in 7 seconds",
    "Other": "doesn't know",
    "B17 manifest-sha256.txt data/a%20b%C3%A9": "data/a b\u00e9 was changed",
    "B6 manifest-sha256.txt L3 5": "Line 5 of manifest-sha256.txt",
    "S2 17": "byte 17",
    "B99 x y": "doesn't know",
    "B17 %ZZ <b>": "<b> was changed",
}


def shown_by_page(page, keys, faults):
    return page.driver.execute_async_script(
        """const [keys, faults, done] = arguments;
        import(new URL('office.js', location.origin + location.pathname).href).then(o => {
          const out = {}, box = document.createElement('div');
          const say = e => { box.replaceChildren(...o.refusalWords(e).flat(9)); return box.innerText };
          document.body.append(box);
          for (const key of keys) { const [error, detail] = key.split(' ');
            const body = { error, day: '2024-03-01', deposit: 4, hold: 5, rule: 6, due: '2025-01-01',
              what: undefined, retry: 7 };
            if (detail) { body.rule = body.due = body.what = detail; if (detail === 'matter') body.matter = 'Case <7>' }
            out[key] = say(new o.Refusal(409, body)) }
          for (const fault of faults) out[fault] = say(new o.Refusal(422, { error: 'BadBag', fault }));
          box.remove(); done(out) })""",
        keys,
        faults,
    )


# ---- looks

CONTRAST = """
  const light = c => { const [r, g, b] = c.map(x => (x /= 255) <= .03928 ? x / 12.92 : ((x + .055) / 1.055) ** 2.4);
    return .2126 * r + .7152 * g + .0722 * b };
  const numbers = text => text.match(/[\\d.]+/g).map(Number);
  const ground = e => { for (; e; e = e.parentElement) { const c = numbers(getComputedStyle(e).backgroundColor);
    if (c.length < 4 || c[3] > 0) return c }
    return matchMedia('(prefers-color-scheme: dark)').matches ? [0, 0, 0] : [255, 255, 255] };
  const ratio = (one, other) => {
    const [a, b] = [light(one), light(other)]; return (Math.max(a, b) + .05) / (Math.min(a, b) + .05) };
  const low = []; let n = 0, least = 99;
  const walk = document.createTreeWalker(document.body, NodeFilter.SHOW_TEXT);
  while (walk.nextNode()) { const e = walk.currentNode.parentElement, text = walk.currentNode.data;
    if (!text.trim() || !e.checkVisibility() || e.closest(':disabled, datalist')) continue;
    const c = ratio(numbers(getComputedStyle(e).color), ground(e)); n++; least = Math.min(least, c);
      if (c < 4.5) low.push([c.toFixed(2), text.slice(0, 40)]) }
  for (const e of document.querySelectorAll('input:not([type=checkbox]), select')) { if (!e.checkVisibility()) continue;
    const c = ratio(numbers(getComputedStyle(e).borderTopColor), ground(e.parentElement)); n++;
      if (c < 3) low.push([c.toFixed(2), 'border of ' + e.id]) }
  return [n, least.toFixed(2), low]"""
NAMED = (
    "button",
    "link",
    "textbox",
    "combobox",
    "checkbox",
    "table",
    "navigation",
    "region",
    "form",
    "progressbar",
    "meter",
    "Date",
    "dialog",
    "columnheader",
    "group",
)


# The papers and the dialogs: each brings the page there. (The word makes accessions of their own.)


def receipt(page, word):
    page.deposit(folder(page.stand, "small", {"x.txt": b"x"}), "R-" + word, "y0")
    page.wait(lambda: page.text("h1") == page.mark("Receipt"))


def certificate(page, word):
    number = page.stand.deposited(form({"letter.txt": b"x"}), "C-" + word)
    page.go(f"deposit/{number}", f"Deposit {number}")
    page.destroy("C-" + word)
    page.wait(lambda: page.text("h1") == page.mark("Certificate of destruction"))


def destroying(page, _):
    page.go("deposit/2", "Deposit 2")
    page.destroy()


def refused(page, _):
    page.go("deposit/2", "Deposit 2")
    page.destroy("2024-002")
    page.wait(lambda: page.all("dialog .refusal"))


def releasing(page, _):
    page.go("deposit/1", "Deposit 1")
    page.wait(lambda: page.all("#holds table"))
    page.dialog(page.button("Release hold 2"))


def revising(page, _):
    page.go("names", "Collections and classes")
    class_, years = page.all("main form")[1].find_elements("css selector", "input:not([type=checkbox])")
    class_.send_keys("y10")
    years.send_keys("9")
    page.dialog(page.all("main form")[1].find_element("css selector", "button"))


PAPERS = {"receipt": receipt, "certificate": certificate}
DIALOGS = {"destroy": destroying, "refused": refused, "release": releasing, "class": revising}


def show(page, path, head):
    page.go(path, head)
    time.sleep(0.3)
    if path == "deposit/2":
        page.button("Show the files").click()
        page.wait(lambda: page.all("#files table"))
    if path == "holds":
        page.button("Look through the deposits").click()
        page.wait(lambda: page.all("#live table"))
    if path == "new":  # a box of each kind: what is well, what to mind, what is refused
        page.one("#folder").send_keys(str(folder(page.stand, "look", {**BAG, "data/a": b"abd", "Thumbs.db": b""})))
        page.wait(lambda: all(page.all("#seen ." + kind) for kind in ("good", "warn", "refusal")))


def views(page, word):
    """Each page, paper and dialog in turn, by its name, once it is shown."""
    for path, head in PAGES.items():
        show(page, path, head)
        yield path.replace("/", "-")
    for name, reach in (PAPERS | DIALOGS).items():
        reach(page, word)
        time.sleep(0.3)
        yield name
        if name in DIALOGS:
            page.press(ESCAPE)
            page.wait(lambda: not page.all("dialog"))


def looks(page, kind, width=None):
    """Each view: names of controls, contrast, focus, width, size of controls, order of headings, and a picture."""
    found = {kind: [] for kind in ("nameless", "low", "wide", "small", "jumps", "unseen", "odd", "outside")}
    total, least, stops, seen = 0, 99, 0, 0
    for view in views(page, kind):
        n, lowest, low = page.run(CONTRAST)
        found["low"] += [(view, *it) for it in low]
        total, least, seen = total + n, min(least, float(lowest)), seen + 1
        for name, some in (*laid_out(page, width), *structure(page)):
            found[name] += [(view, it) for it in some]
        page.shot(f"{kind}-{view}", full=bool(width))
        some = [focus_shown(page) for _ in range(12)]
        stops += len(some)
        found["unseen"] += [(view, it) for it in some if it]
    nameless = found["nameless"]
    check(
        seen == 13 and not nameless,
        f"{kind}: in {seen} views each control, table and region has a name {nameless[:4]}",
    )
    check(
        not found["low"],
        f"{kind}: {total} texts and borders have their contrast, texts at least {least} {found['low'][:4]}",
    )
    check(not found["unseen"], f"{kind}: the focus is seen at each of {stops} stops {found['unseen'][:4]}")
    check(not found["wide"], f"{kind}: no page is wider than the window {found['wide'][:4]}")
    check(not found["outside"], f"{kind}: each dialog fits the window {found['outside'][:4]}")
    check(not found["small"], f"{kind}: no control is lower than 24 px {found['small'][:4]}")
    check(not found["jumps"], f"{kind}: headings skip no level {found['jumps'][:4]}")
    check(not found["odd"], f"{kind}: no page shows a value of the program's own {found['odd'][:4]}")


def laid_out(page, width):
    """What is wider than the window, a dialog that doesn't fit it, and controls that are too small."""
    inner, outer = page.run(
        "return [document.documentElement.scrollWidth, arguments[0] ?? document.documentElement.clientWidth]", width
    )
    yield "wide", [(inner, outer)] if inner > outer else []
    yield "outside", page.run(
        "return [...document.querySelectorAll('dialog')].map(e => [e, e.getBoundingClientRect()])"
        ".filter(([e, r]) => r.left < 0 || r.right > innerWidth || r.top < 0 || r.bottom > innerHeight"
        " || e.scrollWidth > e.clientWidth)"
        ".map(([e, r]) => [r.left, r.right, r.top, r.bottom, e.scrollWidth])"
    )
    yield "small", page.run(
        "return [...document.querySelectorAll('button, input, select, nav a')].filter(e => e.checkVisibility())"
        ".map(e => [e.textContent || e.id, e.getBoundingClientRect()])"
        ".filter(([, r]) => r.height < 24 || r.width < 20).map(([t, r]) => [t, r.width, r.height])"
    )


def structure(page):
    """Controls and regions without a name in the accessibility tree, headings that skip a level, and values of the
    program's own."""
    tree = page.driver.execute_cdp_cmd("Accessibility.getFullAXTree", {})["nodes"]
    roles = [(it.get("role", {}).get("value"), it.get("name", {}).get("value")) for it in tree if not it["ignored"]]
    yield "nameless", [role for role, name in roles if role in NAMED and not name]
    levels = page.run("return [...document.querySelectorAll('h1, h2, h3')].map(h => +h.tagName[1])")
    yield "jumps", [levels] if levels[0] != 1 or any(b - a > 1 for a, b in zip(levels, levels[1:])) else []
    yield "odd", re.findall(r"\b(?:undefined|null|NaN|false|true|\[object \w+\])\b", page.text("body"))


def focus_shown(page):
    """One step by Tab: what has the focus and doesn't show it, or isn't on the screen."""
    page.press(TAB)
    return page.run(
        "const e = document.activeElement, r = e.getBoundingClientRect(), s = getComputedStyle(e);"
        "return e === document.body || (s.outlineStyle !== 'none' && parseFloat(s.outlineWidth) >= 2"
        " && r.bottom > 0 && r.top < innerHeight) ? null : e.tagName + ' ' + e.textContent.slice(0, 20)"
    )


def tab_to(page, name, most=90):
    """Steps by Tab until what has this name has the focus. Gives how many."""
    for i in range(most):
        page.press(TAB)
        it = page.focused()
        if name in (
            it.text,
            it.get_attribute("aria-label"),
            page.run("return arguments[0].labels?.[0]?.textContent", it),
        ):
            return i + 1
    raise AssertionError("no way by Tab to " + name)


def keyboard(page, stand):
    """From the top of a page to a placed hold and to a disposal, by keyboard alone."""
    page.go("due", "Due today")
    page.run("document.querySelector('.skip').focus()")
    check(
        page.one(".skip").is_displayed() and page.one(".skip").size["height"] > 20,
        "the skip link shows when it has the focus",
    )
    page.shot("skip")
    page.press(ENTER)
    check(page.focused().tag_name == "h1", "and leads to the heading")
    steps = [tab_to(page, "Review deposit 8")]
    page.press(ENTER)
    page.wait(lambda: page.text("h1") == "Deposit 8")
    steps.append(tab_to(page, "Matter"))
    page.press("Case of the keys", ENTER)
    check(page.says("is placed", "#told"), f"a hold is placed by keyboard ({steps} steps)")
    page.wait(lambda: page.all("#holds table"))
    released_by_keys(page)
    steps = tab_to(page, "Destroy …")
    page.press(ENTER)
    page.wait(lambda: page.all("dialog[open]"))
    steps += tab_to(page, "To confirm, type the accession KEYS")
    page.press("KEYS", ENTER)
    page.wait(lambda: page.text("h1") == "Certificate of destruction")
    check(
        page.focused().tag_name == "h1",
        f"a deposit is destroyed by keyboard alone; the certificate's heading has the focus ({steps} steps)",
    )


def released_by_keys(page):
    page.run("document.querySelector('h1').focus()")
    tab_to(page, "Release hold 3")
    page.press(ENTER)
    page.wait(lambda: page.all("dialog[open]"))
    page.press(TAB)
    check(page.focused().text == "Release", "in the dialog, Tab goes from Cancel to Release")
    page.press(TAB)
    check(
        page.run("return document.activeElement === document.body || !!document.activeElement.closest('dialog')"),
        "and the focus doesn't leave it for the page below",
    )
    page.run("document.querySelector('dialog .danger').focus()")
    page.press(ENTER)
    page.awaits("was released", "#told")


def revised_by_keys(page, stand):
    page.go("names", "Collections and classes")
    class_, years = page.all("main form")[1].find_elements("css selector", "input:not([type=checkbox])")
    class_.send_keys("y10")
    years.send_keys("0" + ENTER)
    page.wait(lambda: page.all("dialog[open]"))
    check(
        "due day moves: 2." in page.text("dialog") and "before: 0; afterwards: 2." in page.text("dialog"),
        "a class with deposits is changed only after a question, which says what falls due",
    )
    page.press(ESCAPE)
    page.wait(lambda: not page.all("dialog"))
    check(stand.json("GET", "/deposits/2")["due"] == "2034-02-11", "and Escape changes nothing")
    page.run("dispatchEvent(new ErrorEvent('error', { message: 'a <b> fault' }))")
    check(
        page.says("This page failed.") and "a <b> fault" in page.text("#failed"), "a fault of the page itself is said"
    )


# ---- rules for bags


SWAPS = (
    (b"  ", b" *"),
    (b"  ", b" "),
    (b"\n", b"\r"),
    (b"1.0", b"1.1"),
    (b"0.97", b"1.0"),
    (b"UTF-8", b"utf-8 "),
    (b"data/", b"./data/"),
    (b"data/", b"dat/"),
    (b"Oxum: ", b"Oxum: 1"),
    (b"Payload-Oxum", b"PAYLOAD-OXUM"),
    (b"%25", b"%"),
    (b"Bagging-Date:", b"Payload-Oxum:"),
    (b"Bagging-Date:", b" x"),
    (b"bagit.txt", b"data/a"),
    (b"manifest-sha256.txt", b"tagmanifest-sha256.txt"),
    (b"Tag-File", b"\nTag-File"),
    (b": ", b""),
)


def broken(draw, files):
    """A bag with a change somewhere: a file less, a file more, other bytes."""
    files = dict(files)
    tags = [path for path in files if not path.startswith(b"data/")]
    for _ in range(draw.choice([1, 1, 2])):
        path = draw.choice(list(files) + tags * 3)
        content, kind = files.get(path, b""), draw.randrange(9)
        if kind == 0:
            files.pop(path, None)
        elif kind == 1:
            files[
                draw.choice(
                    [
                        b"data/more",
                        b"fetch.txt",
                        b"manifest-md5.txt",
                        b"tagmanifest-md5.txt",
                        b"other.txt",
                        b"manifest-.txt",
                    ]
                )
            ] = content
        elif kind == 2:
            files[path] = b"\xef\xbb\xbf" + content
        elif kind == 3:
            lines = content.split(b"\n")
            files[path] = b"\n".join(
                draw.sample(lines, len(lines)) + draw.choice([[], [b" more"], [b":x"], [b"nothing"], lines[:1]])
            )
        elif kind == 4:
            files[path] = content.replace(*draw.choice(SWAPS))
        elif content:
            at = draw.randrange(len(content))
            files[path] = (
                content[:at]
                + bytes([draw.randrange(256)]) * draw.choice([0, 1])
                + content[at + draw.choice([0, 1]) :]
            )
    return files


# A change of a bag for each fault of bags.
DIGEST = BAG["manifest-sha256.txt"][:64]
TAG = hashlib.sha256(DECLARED).hexdigest().encode() + b"  bagit.txt\n"
LISTED = hashlib.sha256(BAG["manifest-sha256.txt"]).hexdigest().encode() + b"  manifest-sha256.txt\n"
CHANGES = [
    {"bagit.txt": None},
    {"bagit.txt": b"\xff"},
    {"bagit.txt": b"\xef\xbb\xbf" + DECLARED},
    {"bagit.txt": DECLARED + b"x"},
    {"bagit.txt": DECLARED.replace(b"1.0", b"1")},
    {"bagit.txt": DECLARED.replace(b"1.0", b"1.1")},
    {"bagit.txt": DECLARED.replace(b" UTF-8", b"")},
    {"bagit.txt": DECLARED.replace(b"8", b"16")},
    {"fetch.txt": b""},
    {"manifest-md5.txt": b""},
    {"manifest-sha256.txt": None},
    {"bag-info.txt": b"\xff"},
    {"bag-info.txt": b"\xef\xbb\xbf"},
    {"bag-info.txt": b"\nx"},
    {"bag-info.txt": b" \n:x"},
    {"bag-info.txt": b"\r\n x"},
    {"bag-info.txt": b"payload-oxum: 3,1"},
    {"bag-info.txt": b"Payload-Oxum: 3.1\nPAYLOAD-OXUM: 3.1"},
    {"bag-info.txt": b"Payload-Oxum: 3.2"},
    {"bag-info.txt": b"Payload-Oxum: 3\n .1"},
    {"bag-info.txt": b"Payload-Oxum : 03.1 \t"},
    {"data/b": b""},
    {"data/a": b"abd"},
]
CHANGES += [
    {"manifest-sha256.txt": it}
    for it in (
        b"\xff",
        b"\xef\xbb\xbf",
        b"x",
        DIGEST,
        DIGEST + b" ",
        DIGEST + b"  *data/a",
        DIGEST + b" data//a",
        DIGEST + b" ./data/a",
        BAG["manifest-sha256.txt"] * 2,
        BAG["manifest-sha256.txt"] + DIGEST + b"  bagit.txt",
        BAG["manifest-sha256.txt"] + DIGEST + b"\tdata/%0a",
        b"\r\n \t\r" + BAG["manifest-sha256.txt"].upper().replace(b"DATA/A", b"data/a"),
        DIGEST + b"  data/%61",
    )
]
CHANGES += [
    {"tagmanifest-sha256.txt": it}
    for it in (
        TAG,
        TAG + LISTED,
        TAG + LISTED + DIGEST + b"  data/a",
        LISTED + DIGEST + b"  tagmanifest-md5.txt",
        LISTED + DIGEST + b"  tagmanifest-a/b.txt",
        LISTED + DIGEST + b"  tagmanifest-.txt",
        b"",
    )
]


def one_of_each():
    whole = [{path: it for path, it in {**BAG, **change}.items() if it is not None} for change in CHANGES]
    return [transfer_form(it) for it in whole]


# Forms that are cut short, or that a rule for forms forbids.
FORMS = [
    b"",
    b"BAGSET",
    b"BAGSET 1\n",
    b"BAGSET 2\n",
    b"BAGSET 1\nEND",
    b"BAGSET 1\nEND\n",
    b"BAGSET 1\nEND\nx",
    b"BAGSET 1\nFILE",
    b"BAGSET 1\nFILE 0",
    b"BAGSET 1\nFILE 1025",
    b"BAGSET 1\nFILE 102",
    b"BAGSET 1\nFILE 01",
    b"BAGSET 1\nFILE 1 1677721",
    b"BAGSET 1\nFILE 1 16777217",
    b"BAGSET 1\nFILE 1 16777216",
    b"BAGSET 1\nFILE 1 0\na",
    b"BAGSET 1\nFILE 1 0\na\n",
    b"BAGSET 1\nFILE 1 0\n/\nEND\n",
    b"BAGSET 1\nFILE 4 0\ndata\nEND\n",
    b"BAGSET 1\nFILE 1 0\naxEND\n",
    b"BAGSET 1\nFILE 1 0\nb\nFILE 1 0\na\nEND\n",
    b"BAGSET 1\nFILE 1 0\na\nFILE 3 0\na/b\nEND\n",
    b"BAGSET 1\n" + b"".join(b"FILE 4 0\n%04d\n" % i for i in range(2001)) + b"END\n",
]


def drawn_forms():
    """Forms of bags that are whole, and of some that were changed; some forms are changed, too."""
    draw, forms = random.Random(54), []
    for number in range(700):
        files, _, _ = bags.drawn_bag(draw)
        if number % 9:
            files = broken(draw, files)
        text = transfer_form(files)
        if number % 5 == 1 and text:
            at = draw.randrange(len(text))
            text = draw.choice(
                [text[:at], text + b"x", text[:at] + bytes([draw.choice(b"\n 0123456789FE/.x\xff")]) + text[at + 1 :]]
            )
        if len(text) < 60000:
            forms.append(text)
    return forms


def judged(page, stand):
    """The page's judgment of bags and forms is that of `depot check`."""
    forms = drawn_forms() + FORMS + one_of_each()
    said = page.driver.execute_async_script(
        """const [texts, done] = arguments, at = name => new URL(name, location.origin + location.pathname).href;
        Promise.all([import(at('bags.js')), import(at('judging.js'))]).then(async ([b, j]) => { const out = [];
          for (const text of texts) {
            const { files, fault } = b.readForm(Uint8Array.from(atob(text), c => c.charCodeAt(0)));
            const found = fault ?? await j.bagFault(files);
            out.push(fault ? 'unreadable ' + fault : found ? 'invalid ' + found : 'valid') }
          done(out) })""",
        [base64.b64encode(it).decode() for it in forms],
    )
    kinds, wrong = {}, []
    for text, mine in zip(forms, said):
        office = subprocess.run([stand.program, "check", "-"], input=text, capture_output=True).stdout.decode().strip()
        office = "valid" if office.startswith("valid ") else office
        wrong += [] if office == mine else [(mine, office)]
        parts = [it for it in office.split(" ") if re.fullmatch(r"valid|[VLISB]\d+", it)]
        kind = parts[-1] if parts[0] in ("B2", "B6", "B13") else parts[0]
        kinds[kind] = kinds.get(kind, 0) + 1
    unseen = documented()[0] - {"NAME", "SIZE"} - set(kinds)
    check(
        not wrong and not unseen and kinds["valid"] >= 30,
        f"the page judges {len(forms)} bags and forms as depot check does, each fault among them: "
        f"{kinds['valid']} valid {wrong[:3]} {sorted(unseen)}",
    )
    say("faults: " + ", ".join(f"{kind} {n}" for kind, n in sorted(kinds.items())))


# ---- load


def damaged(page):
    page.go("deposit/2", "Deposit 2")
    page.run(
        """window.real = fetch; window.fetch = (u, o) => u.endsWith('/audit') ?
        Promise.resolve(new Response(
          '{"deposit":2,"fault":"B17 manifest-sha256.txt data/letter%2000.txt","valid":false}')) : real(u, o)"""
    )
    page.button("Audit now").click()
    page.awaits("This deposit is damaged", "#told-audit")
    check(
        "data/letter 00.txt was changed" in page.text("#told-audit")
        and "Tell the administrator" in page.text("#told-audit"),
        "an audit that finds damage says which file, and what to do",
    )
    page.run("window.fetch = real")


def altered(page, stand):
    """A deposit of which a byte was changed in the store: the page says what can't be shown, and its disposal goes
    on."""
    number = stand.deposited(form({"one.txt": b"only here", "two.txt": b"and here"}), "ALTERED")
    page.go(f"deposit/{number}", f"Deposit {number}")
    page.button("Show the files").click()
    page.wait(lambda: page.all("#files table"))
    stand.office.stop()
    quiet = {"check": True, "stdin": subprocess.DEVNULL, "stdout": subprocess.DEVNULL}
    subprocess.run([stand.program, "ask", stand.office.store, "2024-03-01"], **quiet)
    subprocess.run([sys.executable, TOP / "trials/exported.py", "rot", stand.office.store, "ALTERED"], **quiet)
    stand.office.serve("2024-03-01")
    altered_shown(page)
    altered_destroyed(page)


def altered_shown(page):
    """What the page shows of its files, and what it says of those that it can't show."""
    said = []
    for name in ("Show the files", "Download as ZIP", "Download the transfer form"):
        page.run("document.querySelector('#told-files').replaceChildren()")
        page.button(name).click()
        page.wait(lambda: page.all("#told-files .refusal"))
        said.append(page.text("#told-files"))
    check(
        all(
            "Its files can't be shown, since what is stored of it was altered." in it and "503 Store" in it
            for it in said
        ),
        f"a bag of which a byte was flipped isn't shown, and why {said[0]}",
    )
    found = []
    for name in ("data/one.txt", "data/two.txt"):
        page.run("document.querySelector('#told-files').replaceChildren()")
        page.button("Download " + name).click()
        page.wait(lambda: page.all("#told-files .good, #told-files .refusal"))
        found.append("was handed to the browser" in page.text("#told-files"))
    check(sorted(found) == [False, True], f"of its files that are listed by then the intact one is downloaded {found}")
    page.button("Audit now").click()
    check(page.says("This deposit is damaged", "#told-audit"), "an audit says that it is damaged")
    page.shot("altered")


def altered_destroyed(page):
    """Its disposal, with the record and without the files."""
    page.destroy()
    check(
        all(it in page.text("dialog") for it in ("ALTERED", "What is stored was altered, and can't be shown: 2 files")),
        "before its disposal the record is shown, and why its files aren't",
    )
    low = page.run(CONTRAST)[2]
    check(not low, f"with enough contrast {low}")
    page.shot("altered-dialog")
    page.one("dialog input").send_keys("ALTERED" + ENTER)
    check(
        page.says("what was stored of them had been altered") and page.text("h1") == "Certificate of destruction",
        "it is destroyed, and the certificate says that its files were not shown",
    )


def many(page, stand):
    """A list of 100,000 deposits, through the proxy."""
    rows = [
        {
            "accession": f"A-{i}",
            "bytes": 3,
            "class": f"y{i % 50}",
            "closed": "2024-02-29",
            "collection": f"c{i % 200}",
            "deposit": i + 1,
            "deposited": "2024-03-01",
            "due": "2024-02-29",
            "files": 1,
        }
        for i in range(100_000)
    ]
    (stand.room / "many.html").write_text(json.dumps({"deposits": rows}, separators=(",", ":")))
    page.go("new", "New deposit")
    page.run(
        """window.real = fetch;
        window.fetch = (u, o) => real(u.endsWith('/deposits') ? new URL('many.html', location.origin +
          location.pathname).href : u, o);
        new MutationObserver(() => { if (document.querySelector('#list tbody td')) window.stood ??= performance.now()
          }).observe(document.body, {subtree: true, childList: true})"""
    )
    page.go("deposits", "Deposits")
    page.awaits("100,000 deposits are listed", "#count")
    took = page.run(
        "const all = performance.getEntriesByName(new URL('many.html', location.origin + location.pathname).href);"
        "return (stood - all[0].responseEnd) / 1000"
    )
    check(took <= 2, f"of 100,000 deposits the first rows stand {took:.2f} s after the answer's last byte")
    searched_and_sorted(page)
    page.run("window.fetch = real")


def measured(page, label, kind, values):
    """The longest of what a change to each value takes until it is painted, each tried three times."""
    change = """const [control, kind, value, done] = arguments, from = performance.now();
        control.value = value; control.dispatchEvent(new Event(kind));
        requestAnimationFrame(() => setTimeout(() => done((performance.now() - from) / 1000)))"""
    control = page.field(label)
    return max(min(page.driver.execute_async_script(change, control, kind, it) for _ in range(3)) for it in values)


def searched_and_sorted(page):
    took = measured(page, "Accession contains", "input", ("9", "99", "999", "9999", "99999"))
    check(page.text("#count") == "1 deposit is listed." and took <= 0.3, f"a search takes at most {took:.2f} s a key")
    measured(page, "Accession contains", "input", [""])
    took = measured(page, "Sorted by", "change", ("accession", "class", "due", "deposit"))
    check(took <= 1, f"sorting takes at most {took:.2f} s")


def largest_bag(page, stand):
    """The largest bag that the page makes, by its modules."""
    most = stand.folder / "work" / "most"
    folder(stand, "most", {f"{i:04}": os.urandom(8180) for i in range(1996)})
    page.go("new", "New deposit")
    page.one("#folder").send_keys(str(most))
    page.awaits("plain folder", "#seen")
    found = page.driver.execute_async_script(
        """const done = arguments[0], at = name => new URL(name, location.origin + location.pathname).href;
        Promise.all([import(at('bags.js')), import(at('judging.js')), import(at('zip.js'))]).then(async ([b, j, z]) => {
          const t = [performance.now()], tick = () => t.push(performance.now());
          const m = b.measured(b.chosen(document.querySelector('#folder').files)); tick(); const sums = [];
          for (const f of m.files) { f.content = await b.read(f); sums.push(await b.sha256(f.content)) } tick();
          const f = await b.bagOf(m.files, sums, { day: '2024-03-01', accession: 'A', description: '' }); tick();
            const p = b.readForm(f).files; tick();
          const fault = await j.bagFault(p); tick(); const d = j.digests(p);
          const o = z.zip('A', p, '2024-03-01'); tick();
          done([f.length, m.size, p.length, d.size, fault, t.slice(1).map((x, i) => Math.round(x - t[i]))]) })"""
    )
    check(
        found[2] == 2000 and found[3] == 1999 and found[4] is None and found[0] <= found[1] <= 16777216,
        f"a form of {found[0]:,} bytes of 1,996 files: measuring, hashing, packing, reading, judging, zipping take "
        f"{found[5]} ms",
    )


# ---- in another language


# Texts and names of controls that aren't wholly of words.js, whose texts are in brackets by now.
ENGLISH = """const out = [], walk = document.createTreeWalker(document.body, NodeFilter.SHOW_TEXT);
    const bare = x => { while (x !== (x = x.replace(/⟦[^⟦⟧]*⟧/g, ''))); return x };
    while (walk.nextNode()) { const e = walk.currentNode.parentElement, own = e.cloneNode(true);
      if (e.closest('.others, datalist, #day')) continue;
      own.querySelectorAll('.others').forEach(x => x.remove());
      if (/[A-Za-z]{2}/.test(bare(own.textContent))) out.push(own.textContent) }
    if (/[A-Za-z]{2}/.test(bare(document.title))) out.push(document.title);
    for (const e of document.querySelectorAll('[aria-label], [data-label]'))
      for (const x of [e.ariaLabel, e.dataset.label]) if (x && !x.includes('⟦')) out.push(x);
    return out"""


def in_brackets(it):
    if isinstance(it, str):
        return it if it in ("en", "ltr") else "⟦" + it + "⟧"
    return (
        {key: in_brackets(value) for key, value in it.items()}
        if isinstance(it, dict)
        else [in_brackets(value) for value in it]
    )


def translated(page, stand, said):
    original = (stand.room / "words.js").read_text()
    other = in_brackets(said) | {"language": "ar", "direction": "rtl"}
    (stand.room / "words.js").write_text("export default " + json.dumps(other, ensure_ascii=False))
    page.driver.execute_cdp_cmd("Network.setCacheDisabled", {"cacheDisabled": True})
    page.driver.get(stand.url + "/room/?other")
    page.wait(lambda: page.text("h1"))
    page.mark = lambda text: f"⟦{text}⟧"
    english, left = [], []
    for view in views(page, "rtl"):
        english += [(view, it) for it in page.run(ENGLISH)]
        found = page.run(
            "const there = document.querySelector('dialog') ?? document.querySelector('main'), "
            "all = document.documentElement;"
            "return [getComputedStyle(there).direction, all.scrollWidth <= innerWidth]"
        )
        left += [] if found == ["rtl", True] else [(view, found)]
        page.shot(f"rtl-{view}")
        if view == "receipt":
            page.button("Save as a text file").click()
            named = page.becomes(lambda: [it.name for it in stand.downloads.iterdir() if "deposited-R-rtl" in it.name])
            check(named and named[0].startswith("⟦"), f"a saved paper's name is translated, too {named}")
    check(not english, f"in another language no English is left {english[:5]}")
    check(not left, f"and each page, paper and dialog is laid out from right to left {left}")
    (stand.room / "words.js").write_text(original)


def by_phone(stand, width):
    page = stand.chromium("anna", width, 844)
    page.awaits("deposits are listed")
    looks(page, f"phone-{width}", width)
    page.quit()


def all_looks(stand):
    stand.office.serve("2024-03-01")
    seed(stand)
    said = all_words()
    words(said)
    page_itself()
    page = stand.chromium()
    page.awaits("deposits are listed")
    looks(page, "light")
    refusals_in_words(page, said)
    judged(page, stand)
    keyboard(page, stand)
    revised_by_keys(page, stand)
    damaged(page)
    altered(page, stand)
    many(page, stand)
    largest_bag(page, stand)
    page.quit(["a <b> fault"])
    for width in (390, 320):
        by_phone(stand, width)
    page = stand.chromium(dark=True)
    page.awaits("deposits are listed")
    looks(page, "dark")
    translated(page, stand, said)
    page.quit()
