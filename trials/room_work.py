"""Part of room.py: an officer's work in the page, from the first collection to a certificate of destruction."""
import hashlib
import os
import random
import re
import subprocess
import time
import urllib.parse
import zipfile

import bags
from room_stand import check, say
from shared.forms import DECLARATION as DECLARED
from shared.forms import bag, lay
from shared.places import EXAMPLE_BAG

# Names that try the page: each is a file of the first deposit.
ODD = [
    "<img src=x onerror=window.pwned=1>.txt",
    "quo\"te's.txt",
    "photo\u202egpj.exe",
    "100%25 & more%.txt",
    "\u0639\u0642\u062f.pdf",
    "\u65e5\u672c.txt",
    "\U0001F600.txt",
    "\uFF5E.txt",
    " space .txt",
    "line\nbreak.txt",
    "back\\slash.txt",
    "c:drive.txt",
    "#hash?query.txt",
    "javascript:alert(1)",
    ".hidden",
    "a+b.txt",
    "<b>bold.txt",
    "c%3Adrive.txt",
]
SYSTEM = (".DS_Store", "Thumbs.db")
MATTER = "<script>window.pwned=1</script> \"Case\" \u202e7\u202c \u05d3\u05d9\u05df & <b>"
# A file that fills a form, but for a description as long as it may be (docs/BAGS.md: 16,777,216 bytes).
LARGEST = 16777216 - 4500
ENTER, ESCAPE = "\ue007", "\ue00c"


def bag_of(content):
    """The files of a bag with one file, `data/a`, by their paths as texts."""
    return {path.decode(): it for path, it in sorted(bag({b"data/a": content}).items())}


BAG = bag_of(b"abc")


def folder(stand, name, files):
    """A folder of this name with these files, beside those that it has."""
    there = stand.folder / "work" / name
    lay(there, files)
    return there


def payload_below(folder):
    """The files of a folder that the page deposits, by their paths."""
    return {
        it.relative_to(folder).as_posix(): it.read_bytes()
        for it in folder.rglob("*")
        if it.is_file() and not it.is_symlink() and it.name not in SYSTEM
    }


def program(stand, *words):
    return subprocess.run([stand.program, *map(str, words)], capture_output=True, text=True).stdout.strip()


def box_of_300(stand):
    box = stand.folder / "work" / "Box 12"
    files = {name: f"odd {i}\n".encode() for i, name in enumerate(ODD)}
    draw = random.Random(12)
    files.update(
        (f"letters/{1950 + i // 60}/letter {i:03}.txt", draw.randbytes(1 + i * 37 % 300))
        for i in range(300 - len(ODD))
    )
    folder(stand, box.name, {**files, ".DS_Store": b"x", "letters/Thumbs.db": b"x"})
    (box / "empty").mkdir()
    (box / "link").symlink_to("/etc/hostname")
    return box


def names(page, stand):
    page.wait(lambda: page.text("h1") == "Deposits")
    check(
        page.text("#day") == "2024-03-01" and page.text("#caller") == "anna",
        "the page says the office's day and who asks",
    )
    page.awaits("No deposit is listed.")
    check(page.focused().tag_name == "h1", "the focus is on the heading")
    page.go("names", "Collections and classes")
    name = page.all("main form")[0].find_element("css selector", "input")
    name.send_keys("Maps!" + ENTER)
    page.awaits("Write 1 to 40 of")
    check(
        page.focused().get_attribute("aria-invalid") == "true",
        "a bad name is said beside its field, which has the focus",
    )
    name.clear()
    name.send_keys("maps" + ENTER)
    check(page.says("The collection maps is defined.", "#told"), "a collection is defined")
    name.clear()
    name.send_keys(".." + ENTER)
    check(
        page.says("A browser can't send this name."),
        "a name that a browser would take for a folder is refused in the page",
    )


def define(page, class_, years=None):
    """Types a class, and its years if it doesn't keep permanently."""
    form = page.all("main form")[1]
    for control, value in zip(form.find_elements("css selector", "input:not([type=checkbox])"), (class_, years)):
        if value is not None:
            control.clear()
            control.send_keys(value)
    form.find_element("css selector", "button").click()


def classes(page, stand):
    define(page, "y0", "201")
    check(page.says("whole number from 0 to 200"), "201 years are refused in the page")
    define(page, "y1", "1")
    check(
        page.says("No due day", "dialog") and page.says("hides from you", "dialog"),
        "a class is defined after a question",
    )
    page.one("dialog .danger").click()
    check(page.says("The class y1 keeps its deposits for 1 year.", "#told"), "a class is defined, with a singular")
    page.one("#forever").click()
    define(page, "good")
    page.wait(lambda: page.all("dialog[open]"))
    page.one("dialog .danger").click()
    check(
        page.says("The class good keeps its deposits permanently.", "#told"),
        "a class that keeps permanently is defined",
    )
    stand.json("PUT", "/collections/tax")
    for class_, years in (("y0", 0), ("y10", 10)):
        stand.json("PUT", f"/classes/{class_}", {"years": years})


def box_seen(page, box):
    """A plain folder of 300 files, odd names among them, is chosen, and then dropped."""
    page.go("new", "New deposit")
    page.button("Deposit").click()
    check(page.says("Choose a folder first.", "#told"), "without a folder nothing is sent")
    page.one("#folder").send_keys(str(box))
    check(
        page.says("The browser would change the name of this file: back\\slash.txt", "#seen"),
        "a chosen folder with a \\ in a name is refused: Chromium would change it",
    )
    page.drop(box)
    page.awaits("plain folder", "#seen")
    seen = page.text("#seen")
    check(
        " 300 files." in seen and "304 of 2,000 files" in seen and "Compare the number of files" in seen,
        "300 files are counted, to be compared: " + seen.replace("\n", " | "),
    )
    check("left out, 2:" in seen and "Thumbs.db" in seen, "the system's files are left out, and named")


def asked_first(page, stand):
    """The office is asked whether it would take it, before the bag is sent."""
    for name, value in (("Collection", "mapz"), ("Class", "y1"), ("Accession", "A-1"), ("Closed on", "2023-02-28")):
        page.put(name, value)
    page.shot("new")
    page.button("Deposit").click()
    check(page.says("There is no such collection.", "#told"), "an empty body asks first: no such collection")
    check(
        "What to do: Check the spelling" in page.text("#told") and page.focused().get_attribute("class") == "refusal",
        "the refusal says what to do, and has the focus",
    )
    check(not stand.json("GET", "/deposits")["deposits"], "and nothing was deposited by asking")
    page.put("Collection", "maps")
    page.put("Accession", "A/1")
    page.button("Deposit").click()
    check(page.says("Write 1 to 64 letters, digits"), "an accession with a / is refused in the page")
    page.put("Accession", "A-1")
    page.put("Closed on", "2024-03-02")
    page.button("Deposit").click()
    check(page.says("Write a day that isn't after 2024-03-01"), "a closing day ahead is refused in the page")
    page.put("Closed on", "2023-02-28")


def plain_folder(page, stand):
    """The page makes a bag of the folder of 300 files. Gives its form."""
    box = box_of_300(stand)
    box_seen(page, box)
    asked_first(page, stand)
    page.put("Description (optional)", 'Letters "of" the <b>harbour</b>')
    page.run(
        "window.heard = []; new MutationObserver(() => heard.push(document.querySelector('#told').textContent))"
        ".observe(document.querySelector('#told'), {subtree: true, childList: true, characterData: true})"
    )
    began = time.time()
    page.button("Deposit").click()
    page.wait(lambda: page.text("h1") == "Receipt")
    say(f"300 files are deposited in {time.time() - began:.2f} s")
    heard = page.run("return heard")
    check(
        all(any(word in it for it in heard) for word in ("Asking the office whether", "The office checks the bag")),
        "it is said that the office is asked first, and that it checks the bag",
    )
    check(
        stand.logged("POST", "/deposits?")[-2:] == [422, 201],
        "and by nginx's log it was: an empty body first, then the bag",
    )
    receipt_of_300(page, stand)
    return unpacked(stand, box)


def receipt_of_300(page, stand):
    page.shot("receipt")
    receipt, form = page.text(), stand.ask("GET", "/deposits/1/bag")[1]
    check(
        all(it in receipt for it in ("Number\n1\n", "A-1", "2024-03-01", hashlib.sha256(form).hexdigest())),
        "the receipt has the number, the accession, the day and the SHA-256 of the form that the office keeps",
    )
    page.button("Save as a text file").click()
    saved = page.download("deposited-A-1.txt").decode()
    check(
        all(
            it in saved
            for it in (
                "Number: 1\n",
                "Accession: A-1\n",
                "Deposited on: 2024-03-01\n",
                "Deposited by: anna\n",
                hashlib.sha256(form).hexdigest(),
            )
        ),
        "and is saved as a text",
    )
    check(page.printed("receipt") == 1, "and printed on one page")


def unpacked(stand, box):
    """The form that the office keeps, by `depot check` and `depot unpack`."""
    back, form = stand.folder / "work" / "back", stand.ask("GET", "/deposits/1/bag")[1]
    (back.parent / "back.bagset").write_bytes(form)
    wanted = payload_below(box)
    found = program(stand, "check", back.parent / "back.bagset")
    check(found == f"valid 1.0 files 300 bytes {sum(map(len, wanted.values()))} manifests 2", f"depot check: {found}")
    program(stand, "unpack", back.parent / "back.bagset", back)
    check(payload_below(back / "data") == wanted, f"depot unpack gives the folder, byte for byte: {len(wanted)} files")
    listed = dict(reversed(line.split("  ", 1)) for line in (back / "tagmanifest-sha256.txt").read_text().splitlines())
    check(
        {name: hashlib.sha256((back / name).read_bytes()).hexdigest() for name in listed} == listed
        and len(listed) == 3,
        "the tag manifest lists the three other tag files, with their checksums",
    )
    info = (back / "bag-info.txt").read_text()
    check(
        'External-Description: Letters "of" the <b>harbour</b>\n' in info and "Payload-Oxum: " in info,
        "bag-info.txt has what was written",
    )
    return form


def one_record(page, stand, form):
    """The first deposit: its files, its audit, its downloads, holds on it, and a disposal that a hold forbids."""
    files_shown(page, stand)
    odd_files(page, stand)
    downloads(page, stand, form)
    held(page, stand)
    parsed(page, stand)
    held_disposal(page, stand)


def files_shown(page, stand):
    small = folder(stand, "small", {"x.txt": b"x"})
    check(
        "Deposit 1 already has this accession." in page.deposit(small, "A-1", "y1"),
        "Taken is said, with a link to the deposit",
    )
    page.shot("taken")
    page.go("deposits", "Deposits")
    page.awaits("1 deposit is listed.", "#count")
    check(
        all(it in page.text("table") for it in ("A-1", "maps", "y1", "2024-02-28", "300")),
        "the list has it, due a year after it was closed",
    )
    page.go("deposit/1", "Deposit 1")
    page.awaits("due since 2024-02-28", "#state")
    page.button("Show the files").click()
    page.awaits("300 files of the payload, 4 files beside it", "#files")
    files = page.text("#files")
    check("data/photo[U+202E]gpj.exe" in files, "a right-to-left mark in a name is shown as [U+202E]")
    check(hashlib.sha256(b"odd 1\n").hexdigest() in files, "each file has its SHA-256 from the manifest")
    page.run("document.querySelector('#files').scrollIntoView()")
    page.shot("files")


def odd_files(page, stand):
    wrong = []
    for i, name in enumerate(ODD):
        before = set(os.listdir(stand.downloads))
        shown = "".join(f"[U+{ord(c):04X}]" if c in "\n\u202e" else c for c in "data/" + name)
        label = "Download " + shown
        page.run(
            "for (const b of document.querySelectorAll('#files button')) if (b.ariaLabel === arguments[0]) b.click()",
            label,
        )
        try:
            # (a name that begins or ends so is that of a download under way)
            new = page.wait(
                lambda: [
                    it
                    for it in set(os.listdir(stand.downloads)) - before
                    if not it.startswith(".org.chromium") and not it.endswith((".crdownload", ".tmp"))
                ]
            )
            content = (stand.downloads / new[0]).read_bytes()
            if content != f"odd {i}\n".encode() or "\u202e" in new[0] or "/" in new[0]:
                wrong.append((name, new, content))
        except AssertionError:
            wrong.append((name, "no download"))
    check(not wrong, f"each of the {len(ODD)} odd files is downloaded, under a name without marks {wrong[:2]}")


def downloads(page, stand, form):
    page.run("document.querySelector('#files button[aria-label*=\"letter 003\"]').click()")
    check(
        page.download("letter 003.txt") == (stand.folder / "work/Box 12/letters/1950/letter 003.txt").read_bytes(),
        "a file is downloaded",
    )
    page.button("Download as ZIP").click()
    page.download("A-1.zip")
    packed = zipfile.ZipFile(stand.downloads / "A-1.zip")
    inside = packed.namelist()
    check(
        packed.testzip() is None
        and len(inside) == 304
        and all(it.startswith("A-1/") for it in inside)
        and not any("\\" in it or ":" in it for it in inside),
        "the ZIP has 304 files, good checksums, and no name with \\ or :",
    )
    check(page.says("for folders or drives: 3.", "#told-files"), "and the page says that three names were changed")
    said = page.text("#told-files")
    check("A-1.zip was handed to the browser" in said, "and that the browser got it, not that it was kept")
    wanted = {"A-1/data/" + path for path in payload_below(stand.folder / "work" / "Box 12")}
    found = {urllib.parse.unquote(it) for it in inside if it.startswith("A-1/data/")}
    check(found == wanted, f"by what it says the names come back, each its own {sorted(found ^ wanted)[:3]}")
    check(
        packed.read("A-1/data/letters/1950/letter 003.txt")
        == (stand.folder / "work/Box 12/letters/1950/letter 003.txt").read_bytes(),
        "and its contents are the files'",
    )
    page.button("Download the transfer form").click()
    check(page.download("A-1.bagset") == form, "the transfer form is downloaded, byte for byte")
    page.button("Audit now").click()
    check(page.says("Valid: 300 files", "#told-audit"), "an audit: " + page.text("#told-audit"))


def held(page, stand):
    page.put("Matter", "")
    page.button("Place a hold").click()
    check(page.says("Write 1 to 200 bytes"), "an empty matter is refused in the page")
    page.put("Matter", "\u00e9" * 101)
    page.button("Place a hold").click()
    check(
        page.says("Write 1 to 200 bytes") and not stand.json("GET", "/deposits/1/holds")["holds"],
        "202 bytes of 101 letters too",
    )
    page.run("arguments[0].value = arguments[1]", page.field("Matter"), MATTER)
    page.button("Place a hold").click()
    page.awaits("Hold 1 is placed.", "#told")
    check(page.says("held, by 1 hold", "#state"), "the deposit is shown as held")
    check(
        stand.json("GET", "/deposits/1/holds")["holds"][0]["matter"] == MATTER,
        "and the office has the matter as it was written",
    )
    page.run("scrollTo(0, 0)")
    page.shot("deposit")


# The page as it would be if it parsed its texts as HTML: by the way that the policy of content lets through, and by the
# old one.
PARSING = """const parsed = text => { const box = document.createElement("div"); box.WAY; return [...box.childNodes] };
for (const name of ["append", "prepend", "replaceChildren"]) {
  const real = Element.prototype[name];
  Element.prototype[name] = function (...parts) {
    real.apply(this, parts.flatMap(part => typeof part === "string" ? parsed(part) : [part])) };
}
"""


def texts_alone(page):
    """What holds if names and matters are shown as text, with whether it does."""
    files, holds = page.text("#files"), page.text("#holds")
    odd = "<img src=x onerror=window.pwned=1>.txt", "<b>bold.txt", "quo\"te's.txt", "line[U+000A]break.txt"
    yield all(it in files for it in odd), "markup, quotes and line ends in names are text"
    yield (
        "<script>window.pwned=1</script> \"Case\" [U+202E]7[U+202C]" in holds,
        "a matter with markup and marks is shown as text",
    )
    found = page.run(
        "return [...document.querySelectorAll('.others *, main :is(img, script, b)')].map(e => e.outerHTML)"
    )
    yield not found, f"no name and no matter became an element {found[:2]}"
    yield page.run("return window.pwned === undefined"), "nothing that stands in them ran"


def parsed(page, stand):
    """Names and matters as text; and the control, the page parsing them as HTML, in which the very same checks fail."""
    page.awaits("Case", "#holds")
    for holds, text in texts_alone(page):
        check(holds, text)
    there = stand.room / "dom.js"
    whole = there.read_text()
    try:
        for way, policy, fewest in (("setHTML(text)", True, 3), ("innerHTML = text", False, 4)):
            stand.nginx(
                lambda text: text
                if policy
                else text.replace("add_header Content-Security-Policy $room_policy always;", "")
            )
            there.write_text(PARSING.replace("WAY", way) + whole)
            other = stand.chromium()
            other.go("deposit/1", "Deposit 1")
            other.button("Show the files").click()
            other.wait(lambda: other.all("#files table") and other.all("#holds table"))
            time.sleep(0.5)
            failed = [text for holds, text in texts_alone(other) if not holds]
            failed += ["the console is silent"] if other.complaints() else []
            check(len(failed) >= fewest, f"with markup parsed by {way}, these checks fail: {'; '.join(failed)}")
            other.quit()
    finally:
        there.write_text(whole)
        stand.nginx()


def held_disposal(page, stand):
    page.destroy()
    shown = page.text("dialog")
    check(
        "Destroy deposit 1?" in shown
        and "300 files of the payload" in shown
        and "It is held." in shown
        and "2024-02-28" in shown,
        "a disposal shows the record and the files first, and that it is held",
    )
    check(page.focused().get_attribute("id") == "dialog-title", "its heading has the focus")
    page.shot("destroy")
    page.one("dialog input").send_keys("A-2" + ENTER)
    page.awaits("That isn't the accession A-1.", "dialog")
    check(stand.json("GET", "/deposits/1").get("deposit") == 1, "a wrong accession destroys nothing")
    page.one("dialog input").clear()
    page.one("dialog input").send_keys("A-1" + ENTER)
    check(
        page.says("Hold 1 forbids it: “<script>window.pwned=1</script> \"Case\" [U+202E]7", "dialog"),
        "the office refuses: Held, with the hold's matter",
    )
    page.shot("held")
    page.press(ESCAPE)
    page.wait(lambda: not page.all("dialog"))
    check(page.focused().get_attribute("id") == "dispose", "Escape closes it, and the focus is back")


def all_holds(page, stand):
    page.go("holds", "Holds")
    check(
        "The office has no list of holds." in page.text() and "The administrator finds all holds" in page.text(),
        "what the routes don't tell of holds the page says, with where it is found",
    )
    page.button("Look through the deposits").click()
    page.awaits("1 of 1 deposits asked", "#live")
    check(
        "deposit 1" in page.text("#live table") and "[U+202E]7" in page.text("#live"),
        "the page finds the hold by asking each deposit",
    )
    page.shot("holds")
    page.dialog(page.button("Release hold 1"))
    check(
        "Case" in page.text("dialog") and page.focused().text == "Cancel",
        "a release asks first, and shows the matter; Cancel has the focus",
    )
    page.button("Release", "dialog").click()
    check(page.says("Hold 1 was released on 2024-03-01.", "#told"), "it is released")
    page.put("Number of the hold", "1")
    page.dialog(page.all("main form")[1].find_element("css selector", "button"))
    page.button("Release", "dialog").click()
    check(page.says("This hold was released on 2024-03-01.", "#told"), "a hold that was released: with its day")


def placed_holds(page, stand):
    """Holds on a collection and a class, and on what isn't there."""

    def hold(on, name, matter):
        page.put("Hold on", on)
        page.put("Name or number", name)
        page.put("Matter", matter)
        page.all("main form")[0].find_element("css selector", "button").click()

    hold("class", "nix", "Case 9")
    check(page.says("There is no such class.", "#told"), "no such class")
    hold("deposit", "77", "Case 9")
    check(page.says("There is no such deposit.", "#told"), "no such deposit")
    hold("collection", "maps", "Case 10")
    check(page.says("Hold 2 is placed.", "#told"), "a collection is held")
    hold("class", "y1", "Case 11")
    check(page.says("Hold 3 is placed.", "#told"), "a class is held")
    check(
        [(it["on"], it["hold"]) for it in stand.json("GET", "/deposits/1/holds")["holds"]]
        == [("collection", 2), ("class", 3)],
        "and the office has both",
    )
    stand.ask("DELETE", "/holds/2")
    stand.ask("DELETE", "/holds/3")


def refused_bags(page, stand):
    """Faults are said before the bag is sent; it is sent all the same where the officer says so, and the office's
    answer is shown."""
    page.go("new", "New deposit")
    page.one("#folder").send_keys(str(folder(stand, "b17", {**BAG, "data/a": b"abd"})))
    page.awaits("By the rules for bags, the office will refuse this:", "#seen")
    check(
        "data/a was changed: its digest is not the checksum in manifest-sha256.txt" in page.text("#seen")
        and "Copy this file again" in page.text("#seen"),
        "a changed file is found before it is sent, with what to do",
    )
    for name, value in (("Collection", "maps"), ("Class", "y10"), ("Accession", "A-3"), ("Closed on", "2024-02-29")):
        page.put(name, value)
    page.one("#go").click()
    check(
        page.says("Choose another folder, or “Send it all the same”.", "#told")
        and page.focused().get_attribute("id") == "anyway",
        "and it isn't sent",
    )
    for name, files, words in (
        ("b17", {}, "data/a was changed: its digest is not the checksum in manifest-sha256.txt"),
        ("b12", {**BAG, "data/caf\u00e9 \u202e.txt": b"1"}, "data/caf\u00e9 [U+202E].txt is in the payload"),
        ("v7", {**BAG, "bagit.txt": DECLARED.replace(b"8", b"16")}, "declares an encoding other than UTF-8"),
        (
            "l3",
            {**BAG, "manifest-sha256.txt": BAG["manifest-sha256.txt"] + b"xyz  data/b\n"},
            "Line 2 of manifest-sha256.txt does not begin with",
        ),
        ("i3", {**BAG, "bag-info.txt": b"nothing here\n"}, "Line 1 of bag-info.txt has no colon"),
        ("b5", {path: BAG[path] for path in ("bagit.txt", "data/a")}, "neither manifest-sha256.txt nor"),
    ):
        said = page.deposit(folder(stand, name, files), "A-3")
        check(
            "The office looked into the bag" in said and said.count(words) == 2,
            f"sent all the same, the office says the same: {words}",
        )
    page.shot("b17")


def bags_and_forms(page, stand, form):
    check(
        "The office has checked the bag" in page.deposit(folder(stand, "bag", BAG), "A-2"),
        "a folder that is a bag is sent as it is",
    )
    check(
        stand.ask("GET", "/deposits/2/bag")[1] == EXAMPLE_BAG.read_bytes(), "and its form is that of depot pack"
    )
    work = stand.folder / "work"
    check(
        "The office has checked the bag" in page.deposit(work / "back.bagset", "A-3", how="form"),
        "a transfer form is sent as it is",
    )
    check(stand.ask("GET", "/deposits/3/bag")[1] == form, "byte for byte")
    (work / "cut.bagset").write_bytes(form[:-3])
    check(
        "The form ends too early." in page.deposit(work / "cut.bagset", "A-4", how="form"),
        "a form that is cut short is refused in the page",
    )
    (work / "other.bagset").write_bytes(b"PK\3\4" + bytes(100))
    check(
        "This is no transfer form" in page.deposit(work / "other.bagset", "A-4", how="form"),
        "and a file that is no form",
    )


def progress(page, stand):
    """As many files, and as many bytes, as a deposit may have; with what is said meanwhile."""
    many = folder(stand, "many", {str(i): b"" for i in range(1997)})
    check(
        "It has 2,001 files with those that describe the bag" in page.deposit(many, "A-4"),
        "1,997 files are too many",
    )
    (many / "1996").unlink()
    page.run(
        """const main = document.querySelector('main'); window.heard = new Set();
        window.hearing = new MutationObserver(() => {
          for (const it of main.textContent.match(/(Reading|Computing checksums|Sending|Sent)[:.]/g) ?? [])
            heard.add(it) });
        hearing.observe(main, {subtree: true, childList: true, characterData: true})"""
    )
    check("The office has checked" in page.deposit(many, "A-4", closed="2024-03-01"), "1,996 are not")
    large = folder(stand, "large", {"x": b"x" * 16777216})
    check("16 MiB is the most" in page.deposit(large, "A-5"), "a form of over 16 MiB is refused in the page")
    (large / "x").write_bytes(random.Random(5).randbytes(LARGEST))
    began = time.time()
    page.line(8 << 20)
    said = page.deposit(large, "A-5", seconds=900)
    page.line(-1)
    heard = page.run("hearing.disconnect(); return [...heard].sort()")
    check(
        heard == ["Computing checksums:", "Reading:", "Sending:", "Sent."],
        f"the progress of reading, hashing and sending is said {heard}",
    )
    size = len(stand.ask("GET", "/deposits/5/bag")[1])
    check(
        "Receipt" in said and 0 < size - LARGEST < 2000,
        f"a form of {size:,} bytes, of at most 16,777,216, is deposited, in {time.time() - began:.1f} s",
    )


def refused_folders(page, stand):
    deep = folder(stand, "deep", {"/".join(["d" * 200] * 5) + "/" + "f" * 20: b"1"})
    check("too long (over 1,024 bytes" in page.deposit(deep, "A-6"), "a path of 1,030 bytes is refused in the page")
    clash = folder(stand, "clash", {"x": b"1"})
    (clash / "data").write_bytes(b"1")
    (clash / "bagit.txt").write_bytes(DECLARED)
    check(
        "One name is both a file and a folder: data" in page.deposit(clash, "A-6"),
        "a bag with a file data is refused in the page",
    )
    latin = folder(stand, "latin", {"x": b"1"})
    with open(os.path.join(os.fsencode(latin), b"caf\xe9"), "wb"):
        pass
    check(
        "has a name that isn't Unicode text" in page.deposit(latin, "A-6", how="drop"),
        "a dropped name in Latin-1 is refused in the page",
    )


def changed_file(page, stand):
    changed = folder(stand, "changed", {f"{i % 7}/{i}": b"1" for i in range(300)})
    page.go("new", "New deposit")
    page.one("#folder").send_keys(str(changed))
    check(page.says("300 files.", "#seen"), "a folder of 300 files is chosen by the field")
    for name, value in (("Collection", "maps"), ("Class", "y10"), ("Accession", "A-6"), ("Closed on", "2024-02-29")):
        page.put(name, value)
    (changed / "3/10").write_bytes(b"2")
    page.one("#go").click()
    check(
        page.says("The file data/3/10 changed or can't be read.", "#seen")
        and stand.json("GET", "/deposits/6")["error"] == "NoSuch",
        "a file that changes after it was judged isn't sent",
    )


def twenty_bags(page, stand):
    """Bags as bags.py draws them: the page's form of each is that of `depot pack`."""
    same, seed = 0, 0
    while same < 20 and seed < 60:
        seed += 1
        draw = random.Random(seed)
        files, _, _ = bags.drawn_bag(draw)
        there = stand.folder / "work" / f"drawn-{seed}"
        bags.lay_drawn(os.fsencode(there), files, draw)
        name = there.with_suffix(".bagset")
        program(stand, "pack", there, name)
        if "The office has checked the bag" not in page.deposit(there, f"D-{seed}", how="drop"):
            say(f"bag {seed}: {page.text('#seen')[:200]!r}")
            continue
        n = re.search(r"Number\n(\d+)", page.text()).group(1)
        if stand.ask("GET", f"/deposits/{n}/bag")[1] != name.read_bytes():
            say(f"bag {seed} differs")
            break
        same += 1
    check(same == 20, f"the page's form is that of depot pack for {same} bags of {seed}")


def callers(page, stand):
    other = stand.chromium("carl")
    other.wait(lambda: "deposits are listed." in other.text())
    check(other.text("#caller") == "carl" and "A-1" not in other.text("table"), "another caller sees what he may list")
    other.go("deposit/2", "Deposit 2")
    check("No rule of the policy allows you this." in other.text(), "and his refusal is said in words")
    other.go("holds", "Holds")
    other.button("Look through the deposits").click()
    check(
        other.says("Deposits whose holds the policy doesn't let you see:", "#live"),
        "of how many deposits he may not see the holds is said",
    )
    other.quit()
    other = stand.chromium("Big.Boss")
    check(other.says("Your user name can't be a caller's."), "a user who can't be a caller is told so")
    other.quit()
    page.go("deposit/1", "Deposit 1")


def sorted_and_soon(page, stand):
    def column(k):
        return [it.text for it in page.all(f"main tbody td:nth-child({k})")]

    sorted_list(page, stand, column)
    due_soon(page, stand, column)


def sorted_list(page, stand, column):
    page.go("deposits", "Deposits")
    page.awaits("deposits are listed", "#count")
    page.put("Sorted by", "accession")
    check(column(2) == sorted(column(2)) and len(column(2)) > 4, "the list is sorted by accession")
    check(
        page.one("th[aria-sort]").text.startswith("Accession")
        and page.one("th[aria-sort]").get_attribute("aria-sort") == "ascending",
        "and the heading says so to a screen reader",
    )
    page.one("#down").click()
    check(column(2) == sorted(column(2), reverse=True), "and the other way round")
    page.put("Sorted by", "bytes")
    largest = stand.json("GET", "/deposits")["deposits"]
    check(column(1)[0] == str(max(largest, key=lambda it: it["bytes"])["deposit"]), "and by size, as a number")
    page.put("Accession contains", "a-2")
    check(page.says("1 deposit is listed.", "#count") and column(2) == ["A-2"], "it is searched, in either case")
    page.put("Accession contains", "")
    page.put("Collection", "maps")
    page.put("Class", "y1")
    page.button("Show").click()
    check(page.says("1 deposit is listed.", "#count"), "it is listed by collection and class")


def due_soon(page, stand, column):
    page.go("soon", "Due soon")
    page.awaits("deposit is listed.", "#count")
    check(
        column(6) == ["2024-02-28"] and "Holds are not considered here" in page.text(),
        "due soon: those within 90 days, and what isn't considered",
    )
    page.put("Due", "1826")
    few = page.text("#count")
    stand.json("PUT", "/classes/y10", {"years": 3})
    page.button("Show").click()
    page.wait(lambda: page.text("#count") != few)
    check(
        column(6) == sorted(column(6)) and max(column(6)) == "2027-03-01",
        "those within five years, by their day, after a class was revised",
    )
    page.shot("soon")
    stand.json("PUT", "/classes/y10", {"years": 10})


def denied(page, stand):
    """Disposals that a rule forbids, that a hold forbids whose matter may not be seen, and of files that may not be
    seen."""
    number = stand.deposited(EXAMPLE_BAG.read_bytes(), "TAX", collection="tax")
    page.go(f"deposit/{number}", f"Deposit {number}")
    page.destroy("TAX")
    check(page.says("Rule 1 of the policy forbids you this.", "dialog"), "a denial says which rule")
    page.press(ESCAPE)
    number = stand.deposited(EXAMPLE_BAG.read_bytes(), "DORA")
    hold = stand.json("POST", "/holds", {"deposit": number, "matter": "Case 12"})["hold"]
    other = stand.chromium("dora")
    other.wait(lambda: other.text("h1"))
    other.go(f"deposit/{number}", f"Deposit {number}")
    other.destroy("DORA")
    check(
        other.says(f"Hold {hold} forbids it. The policy doesn't let you see its matter.", "dialog")
        and "The policy doesn't let you see the files; there are 1 file, 3 bytes." in other.text("dialog"),
        "a caller who may not see files and holds is told so, and which hold forbids it",
    )
    stand.ask("DELETE", f"/holds/{hold}")
    other.press(ENTER)
    other.one("dialog form button:not([type])").click()
    other.wait(lambda: other.text("h1") == "Certificate of destruction")
    check(
        "The files were not shown" in other.text() and "Confirmed by\ndora" in other.text(),
        "and the certificate says that the files were not shown",
    )
    other.quit()


def due_today(page, stand):
    page.go("due", "Due today")
    check(page.says("On 2024-03-01, 1 deposit may be destroyed.", "#count"), "the due list of the first day")
    check(
        "no list of what was destroyed" in page.text(),
        "what the routes don't tell of destroyed deposits the page says",
    )
    stand.json("PUT", "/classes/y10", {"years": 0})
    stand.office.serve("2024-03-04")
    page.go("due", "Due today")
    page.awaits("On 2024-03-04,", "#count")
    check(
        page.text("#day") == "2024-03-04"
        and len(page.all("main tbody tr")) == len(stand.json("GET", "/due")["deposits"]),
        "the page sees the new day: " + page.text("#count"),
    )
    check(
        not page.all("main input[type=checkbox]") and not any("estroy" in it.text for it in page.all("main button")),
        "and offers nothing that destroys several",
    )
    page.shot("due")
    page.printed("due")


def disposal(page, stand):
    page.one("main td a").click()
    page.wait(lambda: page.text("h1") == "Deposit 1")
    page.destroy("A-1")
    page.wait(lambda: page.text("h1") == "Certificate of destruction")
    certificate = page.text()
    check(
        all(
            it in certificate
            for it in (
                "Destroyed on\n2024-03-04",
                "Confirmed by\nanna",
                "Accession\nA-1",
                hashlib.sha256(b"odd 1\n").hexdigest(),
            )
        ),
        "destroyed: the certificate has the day, the caller and each file's SHA-256",
    )
    page.shot("certificate")
    pages = page.printed("certificate")
    check(1 < pages <= 8, f"printed, the certificate of 300 files has {pages} pages")
    page.button("Save as a text file").click()
    saved = page.download("destroyed-A-1.txt").decode()
    check("Accession: A-1" in saved and saved.count("\n") > 300 and "[U+202E]gpj.exe" in saved, "it is saved as a text")
    page.go("deposit/1", "Deposit 1")
    check(
        "This deposit was destroyed on 2024-03-04." in page.text()
        and stand.json("GET", "/deposits/1")["error"] == "Gone",
        "afterwards the page and the office say that it is gone, with the day",
    )


def not_due(page, stand):
    page.go("deposit/2", "Deposit 2")
    stand.json("PUT", "/classes/y10", {"years": 10})
    page.destroy("A-2")
    check(page.says("It is due on 2034-02-28, and not before.", "dialog"), "a deposit that isn't due: with its day")
    page.press(ESCAPE)
    stand.office.stop()
    page.run("location.hash = '#/due'")
    check(page.says("The office isn't running."), "an office that is stopped is said in words")
    stand.office.serve("2024-03-04")


def work(stand):
    stand.office.serve("2024-03-01")
    page = stand.chromium()
    names(page, stand)
    classes(page, stand)
    form = plain_folder(page, stand)
    one_record(page, stand, form)
    all_holds(page, stand)
    placed_holds(page, stand)
    refused_bags(page, stand)
    bags_and_forms(page, stand, form)
    progress(page, stand)
    refused_folders(page, stand)
    changed_file(page, stand)
    callers(page, stand)
    sorted_and_soon(page, stand)
    due_today(page, stand)
    disposal(page, stand)
    denied(page, stand)
    not_due(page, stand)
    twenty_bags(page, stand)
    page.quit()
