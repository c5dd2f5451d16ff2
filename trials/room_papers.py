"""Part of room.py: what an officer does twice, too soon or meanwhile, and what may go wrong then: papers mixed up, lost
or untrue."""
import contextlib
import hashlib
import os
import re
import time

from room_looks import form, seed
from room_proxies import fill_in, outcome, sent
from room_stand import check
from room_work import ENTER, ESCAPE, bag_of, folder


def placed(stand, accession, class_="y0", files=None):
    """A deposit that a program makes. Gives its number."""
    return stand.deposited(form(files or {"a": b"a"}), accession, class_=class_, closed="2024-02-01")


def numbered(stand, accession):
    return next(
        (it["deposit"] for it in stand.json("GET", "/deposits")["deposits"] if it["accession"] == accession), None
    )


def kept(stand, accession, path):
    """A file of the deposit that has this accession."""
    return stand.ask("GET", f"/deposits/{numbered(stand, accession)}/files/{path}")[1]


def stays(page, head, seconds=1.5):
    """Whether this page comes, and is still there a while later."""
    came = page.becomes(lambda: page.text("h1") == head)
    time.sleep(seconds)
    return came and page.text("h1") == head


def menu(page, name):
    """A click on this page's name in the menu, as far as a dialog lets it through."""
    page.run("[...document.querySelectorAll('nav a')].find(a => a.textContent === arguments[0]).click()", name)


def seen_to_ask(page):
    """Whether it is seen, and not only heard, that the office is asked."""
    return page.run(
        "return [...document.body.querySelectorAll('*')].some(e => e.checkVisibility() && !e.closest('.unseen')"
        " && [...e.childNodes].some(x => x.nodeType === 3 && x.data.includes('Asking the office')))"
    )


# ---- a deposit, while something else is chosen


def choose(page, path, how):
    """Another folder, as far as the page takes one."""
    if how == "drop":
        page.drop(path)
    elif page.one("#folder").is_enabled():
        page.one("#folder").send_keys(str(path))
    time.sleep(1)


def swapped(page, stand):
    """What was submitted is what is deposited, whatever is chosen while the office is asked."""
    bags = {name: folder(stand, name, bag_of(name.encode())) for name in ("one", "other")}
    unfit = stand.folder / "work" / "unfit"
    (unfit / "empty").mkdir(parents=True)
    for number, (how, second) in enumerate((("folder", bags["other"]), ("drop", bags["other"]), ("drop", unfit))):
        fill_in(page, bags["one"], f"SWAP-{number}")
        stand.office.freeze()
        page.one("#go").click()
        time.sleep(0.5)
        choose(page, second, how)
        stand.office.thaw()
        page.becomes(lambda: page.text("h1") == "Receipt" or page.all("#told .refusal, #failed"))
        sum_ = hashlib.sha256(form(bag_of(b"one"))).hexdigest()
        check(
            page.text("h1") == "Receipt" and sum_ in page.text() and kept(stand, f"SWAP-{number}", "data/a") == b"one",
            "the bag that was submitted is deposited, and on the receipt, "
            f"though {second.name} was chosen meanwhile ({how})",
        )
        if page.all("#failed"):
            page.driver.get(stand.url + "/room/?failed")


def described(page, stand):
    fill_in(page, folder(stand, "plain", {"x.txt": b"x"}), "SWAP-9")
    page.put("Description (optional)", "as submitted")
    stand.office.freeze()
    page.one("#go").click()
    time.sleep(0.5)
    for name in ("Description (optional)", "Accession"):
        field = page.field(name)
        if field.is_enabled():
            page.run("arguments[0].value = 'afterwards'", field)
    stand.office.thaw()
    said = outcome(page)
    info = kept(stand, "SWAP-9", "bag-info.txt")
    check(
        "Accession\nSWAP-9" in said and b"External-Identifier: SWAP-9\n" in info and b"as submitted\n" in info,
        "its accession and description are those that were submitted, whatever is written meanwhile",
    )


# ---- a new day while the page is open


def new_day(stand):
    """A caller who may deposit and nothing else: no paper has a day that the office didn't say."""
    small = folder(stand, "small", {"x.txt": b"x"})
    page = stand.chromium("olga")
    page.wait(lambda: page.text("h1") == "Deposits")
    fill_in(page, small, "NIGHT-1")
    stand.office.serve("2024-03-02")
    page.one("#go").click()
    said = outcome(page)
    check(
        "Receipt" in said and "2024-03-01" not in said and "Deposited on\n2024-03-02" in said,
        "on a new day the receipt has the new day" + ("" if "Receipt" in said else repr(said[-300:])),
    )
    check(
        b"Bagging-Date: 2024-03-02\n" in kept(stand, "NIGHT-1", "bag-info.txt"),
        "and so has the bag that the page makes",
    )
    fill_in(page, small, "NIGHT-2")
    page.put("Closed on", "2024-03-03")
    stand.office.serve("2024-03-03")
    page.one("#go").click()
    page.becomes(lambda: page.text("h1") == "Receipt" or page.all("#told .refusal, .wrong:not(:empty)"))
    check(page.text("h1") == "Receipt", "a closing day that is the office's new day is taken")
    sent(page, small, "NIGHT-3")
    stand.office.serve("2024-03-04")
    page.run("waiting()")
    said = outcome(page)
    check(
        "Receipt" in said and "Deposited on" not in said,
        "if the day changes in the midst, a receipt without the record says no day",
    )
    page.go("due", "Due today")
    check(
        page.says("Nothing that you may destroy is due on 2024-03-04.", "#count"),
        "who may destroy nothing has nothing due",
    )
    page.quit()


def day_of_others(page, stand):
    """The day of an audit; and a record that can't be read is said, and not filled in."""
    page.go("deposit/2", "Deposit 2")
    page.awaits("kept until", "#state")
    stand.office.serve("2024-03-05")
    page.button("Audit now").click()
    check(page.says("Audited on 2024-03-05.", "#told-audit"), "an audit has the office's day, too")
    small = folder(stand, "small", {"x.txt": b"x"})
    sent(page, small, "UNREAD")
    page.run(
        """window.real = fetch; window.fetch = (u, o) => /deposits\\/\\d+$/.test(u) && (o?.method ?? 'GET') === 'GET' ?
        Promise.resolve(new Response('{"error":"Store"}', {status: 500})) : real(u, o)"""
    )
    page.run("waiting()")
    said = outcome(page)
    check(
        "Receipt" in said
        and re.search(r"record (?:could|can)(?:n't| not) be (?:read|shown|asked)|couldn't read the record", said),
        "a receipt whose record couldn't be read says so",
    )
    page.run("window.fetch = real")


# ---- twice


def twice(page, stand):
    from selenium.webdriver.common.action_chains import ActionChains

    def held(matter):
        return sum(it["matter"] == matter for it in stand.json("GET", "/deposits/2/holds")["holds"])

    page.go("deposit/2", "Deposit 2")
    page.awaits("kept until", "#state")
    page.put("Matter", "Case of the double click")
    ActionChains(page.driver).double_click(page.button("Place a hold")).perform()
    page.awaits("is placed", "#told")
    time.sleep(1)
    check(held("Case of the double click") == 1, "a double click places one hold")
    page.go("holds", "Holds")
    page.put("Hold on", "class")
    page.put("Name or number", "y10")
    page.put("Matter", "Case of the second Enter")
    page.press(ENTER, ENTER)
    page.awaits("is placed", "#told")
    time.sleep(1)
    check(held("Case of the second Enter") == 1, "Enter twice places one hold")
    page.go("names", "Collections and classes")
    class_, years = page.all("main form")[1].find_elements("css selector", "input:not([type=checkbox])")
    class_.send_keys("y10")
    years.send_keys("9")
    page.press(ENTER, ENTER)
    page.wait(lambda: page.all("dialog[open]"))
    time.sleep(1)
    check(len(page.all("dialog")) == 1, "Enter twice asks once whether a class is changed")
    page.press(ESCAPE)
    page.wait(lambda: not page.all("dialog[open]"))


def one_dialog(page, stand):
    placed(stand, "TWICE")
    number = numbered(stand, "TWICE")
    page.go("deposits", "Deposits")
    page.awaits("listed", "#count")
    page.run("location.hash = '#/deposit/' + arguments[0]", number)
    page.wait(lambda: page.text("h1") == f"Deposit {number}")
    page.awaits("No live hold", "#holds")
    page.run("document.querySelector('#dispose').focus()")
    stand.office.freeze()
    page.press(ENTER, ENTER)
    time.sleep(0.3)
    stand.office.thaw()
    page.wait(lambda: page.all("dialog[open]"))
    time.sleep(2)
    check(len(page.all("dialog")) == 1, "Enter twice on “Destroy” opens one dialog")
    page.driver.back()
    page.wait(lambda: page.text("h1") == "Deposits")
    time.sleep(0.5)
    check(not page.all("dialog"), "and “back” closes it with its page")
    check(numbered(stand, "TWICE") == number, "and nothing was destroyed")


# ---- meanwhile


def certificate_stays(page, stand):
    """While the office destroys, neither Escape nor Cancel nor another page takes the certificate away, or the
    refusal."""
    for accession, is_held in (("MEAN-1", False), ("MEAN-2", True)):
        number = placed(stand, accession)
        if is_held:
            stand.json("POST", "/holds", {"deposit": number, "matter": "Case meanwhile"})
        page.go(f"deposit/{number}", f"Deposit {number}")
        page.awaits("held, by" if is_held else "No live hold", "#state" if is_held else "#holds")
        page.destroy()
        stand.office.freeze()
        page.one("dialog input").send_keys(accession + ENTER)
        time.sleep(0.5)
        page.press(ESCAPE)
        page.press(ESCAPE)  # (Chromium lets a dialog refuse the first alone)
        time.sleep(0.3)
        cancel = [it.is_enabled() for it in page.all("dialog[open] button") if it.text == "Cancel"]
        check(cancel == [False], f"while the office is asked to destroy {accession}, the dialog can't be closed")
        menu(page, "Due today")
        time.sleep(0.3)
        stand.office.thaw()
        if is_held:
            check(page.says("“Case meanwhile”", "dialog[open]"), "a refusal is said, whatever was pressed meanwhile")
            page.press(ESCAPE)
        else:
            check(
                stays(page, "Certificate of destruction"),
                "the certificate comes and stays, whatever was clicked meanwhile",
            )
        for box in page.all("dialog[open]"):
            page.run("arguments[0].close()", box)


def receipt_stays(page, stand):
    """While a deposit is sent, another page doesn't come before its receipt or refusal."""
    small = folder(stand, "small", {"x.txt": b"x"})
    for accession, is_taken in (("AWAY-1", False), ("AWAY-2", True)):
        page.go("deposits", "Deposits")
        check(not asks_before(page), "a page at rest can be left without a question")
        sent(page, small, accession)
        check(asks_before(page), "while a deposit is sent, the browser asks before the page is left")
        if is_taken:
            placed(stand, accession)
        page.run(HEADS)
        menu(page, "Holds")
        time.sleep(1)
        page.run("waiting()")
        time.sleep(1)
        for box in page.all("dialog[open] button:not(.danger)"):
            box.click()
        if is_taken:
            said = page.becomes(
                lambda: "already has this accession." in page.text("#told")
            ) and stays(page, "New deposit")
            check(
                said and "already has" in page.text("#told"),
                "a refusal stays, though another page was asked for meanwhile",
            )
        else:
            came = stays(page, "Receipt") and page.run("return heads")
            check(
                came == ["Receipt"],
                f"the receipt comes and stays, though another page was asked for meanwhile {came}",
            )


HEADS = (
    """window.heads = []; new MutationObserver(() => { const head = document.querySelector('h1')?.textContent;
    if (head !== (heads.at(-1) ?? 'New deposit')) heads.push(head) }).observe("""
    "document.body, {subtree: true, childList: true})"
)


def asks_before(page):
    return page.run(
        "const e = new Event('beforeunload', {cancelable: true}); dispatchEvent(e); return e.defaultPrevented"
    )


def slow_page(page, stand):
    """A page that the office is slow to answer for; and a paper that comes before it."""
    page.go("deposits", "Deposits")
    page.awaits("listed", "#count")
    stand.office.freeze()
    menu(page, "Due today")
    check(page.becomes(lambda: seen_to_ask(page), 5), "it is seen that the office is asked")
    stand.office.thaw()
    page.wait(lambda: page.text("h1") == "Due today")


# ---- folders as browsers give them


def chosen_folders(page, stand):
    """What a chosen folder has under other names, or lacks, the page shows to be compared; a dropped one is right or
    refused."""
    slashed = folder(stand, "slashed", {"dir\\sub/x.txt": b"1", "top.txt": b"2"})
    linked = folder(stand, "linked", {"a/1": b"", "a/2": b"", "b/3": b"", "z": b""})
    (linked / "link").symlink_to("a")
    shown_to_compare(page, slashed, linked)
    for name, there in (("slashed", slashed), ("linked", linked)):
        said = page.deposit(there, f"DROP-{name}", how="drop")
        found = [path for path in payload(stand, f"DROP-{name}")] if "Receipt" in said else said
        wanted = sorted(os.path.relpath(os.path.join(at, it), there) for at, _, some in os.walk(there) for it in some)
        wanted = [it for it in wanted if not (there / it).is_symlink()]
        check(found == wanted, f"a dropped folder is deposited as it is: {name} {found if found != wanted else ''}")
    latin = os.path.join(os.fsencode(folder(stand, "latin-folder", {"x": b"1"})), b"caf\xe9")
    os.mkdir(latin)
    with open(os.path.join(latin, b"in.txt"), "wb"):
        pass
    check(
        "has a name that isn't Unicode text" in page.deposit(stand.folder / "work/latin-folder", "DROP-L", how="drop"),
        "a dropped folder with a folder in Latin-1 is refused",
    )


def shown_to_compare(page, slashed, linked):
    """A folder with a \\ in a name, and one with a link, each chosen by the field."""
    page.go("new", "New deposit")
    order = page.run(
        "return document.querySelector('#drop').compareDocumentPosition(document.querySelector('#folder')) & 4"
    )
    check(order and "Or choose" in page.text(), "the page recommends dropping a folder, and choosing one after that")
    page.one("#folder").send_keys(str(slashed))
    page.wait(lambda: page.all("#seen .good, #seen .refusal"))
    said = page.text("#seen")
    check("dir/sub" in said, "of a chosen folder each folder in it is shown as the browser names it: dir/sub")
    check("\\" in said and "links" in said, "and that a browser changes \\, and may leave out files beside links")
    page.go("new", "New deposit")
    page.one("#folder").send_keys(str(linked))
    page.wait(lambda: page.all("#seen .good"))
    listed = dict(
        page.run(
            "return [...document.querySelectorAll('#seen tbody tr')]"
            ".map(row => [...row.cells].map(it => it.textContent.trim()))"
        )
    )
    check(
        listed.get("b/") == "1" and listed.get("a/", "0") in ("0", "2"),
        f"the folders found are listed, with the files in each, to be compared {listed}",
    )


def payload(stand, accession):
    """The payload's paths of the deposit that has this accession."""
    manifest = kept(stand, accession, "manifest-sha256.txt").decode()
    return sorted(line.split("  data/", 1)[1] for line in manifest.splitlines())


def what_is_no_bag(page, stand):
    for name, more, words in (("stray", {}, "ename"), ("stray-data", {"data/x": b"x"}, "data")):
        there = folder(stand, name, {"bagit.txt": b"A note on bags\n", "letter.txt": b"x", **more})
        page.go("new", "New deposit")
        page.one("#folder").send_keys(str(there))
        page.wait(lambda: page.all("#seen .refusal"))
        said = page.text("#seen")
        fits = "ename" in said and (more or "choose the folder “data” in it" not in said)
        check(
            fits and words in said,
            f"a folder with a bagit.txt that is none: what to do fits ({name}) " + ("" if fits else said[-300:]),
        )
    system = [
        "._report.doc", "desktop.ini", "Thumbs.db", ".DS_Store", "a/._1", "a/.DS_Store", "b/Thumbs.db", "c/desktop.ini"
    ]
    page.go("new", "New deposit")
    page.one("#folder").send_keys(str(folder(stand, "system", {it: b"" for it in [*system, "letter.txt"]})))
    page.wait(lambda: page.all("#seen .good"))
    lacking = [it for it in system if it not in page.text("#seen")]
    check(
        not lacking and "left out" in page.text("#seen"),
        f"each file of the system that is left out is named {lacking}",
    )


def nothing_to_deposit(page, stand):
    empty = stand.folder / "work" / "empty"
    (empty / "inside").mkdir(parents=True)
    page.go("new", "New deposit")
    page.drop(empty)
    check(page.says("There is no file in it.", "#seen"), "a folder without files is refused")
    page.drop(folder(stand, "small", {"x.txt": b"x"}), empty)
    check(page.says("Drop one folder, or one transfer form.", "#seen"), "and so are two that are dropped at once")


# ---- what may not be seen, or can't be read


def unread_form(page, stand):
    """An answer that can't be read is a fault, and not what the policy hides."""
    number = placed(stand, "MANGLED")
    page.go(f"deposit/{number}", f"Deposit {number}")
    page.awaits("No live hold", "#holds")
    page.run(
        r"""window.real = fetch; window.fetch = (u, o) => u.endsWith('/bag') ?
        Promise.resolve(new Response('BAGSET 1\nFILE 4 0\nb\n')) : real(u, o)"""
    )
    page.one("#dispose").click()
    page.becomes(lambda: page.all("dialog[open], #told-end .refusal, #failed"))
    check(
        page.all("#told-end .refusal")
        and not page.all("dialog")
        and "The policy doesn't let you" not in page.text("body"),
        "a form that can't be read is a fault, and nothing is destroyed",
    )
    page.press(ESCAPE)
    page.button("Show the files").click()
    check(
        page.becomes(lambda: page.all("#told-files .refusal")) and not page.all("#failed"),
        "and so where its files are shown",
    )
    page.run("window.fetch = real")


def hidden(stand):
    """A caller who may destroy, but see neither holds nor files nor lists."""
    number = placed(stand, "HIDDEN")
    page = stand.chromium("dora")
    page.wait(lambda: page.text("h1") == "Deposits")
    check(opens_by_number(page, number), "who may not list opens a deposit by its number")
    page.go(f"deposit/{number}", f"Deposit {number}")
    page.destroy()
    said = page.text("dialog")
    check(
        "HIDDEN" in said
        and "The policy doesn't let you see the files" in said
        and "The policy doesn't let you see whether it is held." in said,
        "before a disposal it is said that neither files nor holds may be seen",
    )
    page.press(ESCAPE)
    page.go("due", "Due today")
    page.awaits("may be destroyed", "#count")
    check("after you have seen its files." not in page.text(), "“Due today” doesn't promise that the files are seen")
    page.quit()


def opens_by_number(page, number):
    """By the field of the list of deposits that takes a number."""
    page.go("deposits", "Deposits")
    field = next((it for it in page.all("main label") if "umber" in it.text), None)
    if not field:
        return False
    page.driver.find_element("id", field.get_attribute("for")).send_keys(str(number) + ENTER)
    return page.becomes(lambda: page.text("h1") == f"Deposit {number}", 10)


def revised_unseen(stand):
    """A caller who may revise classes, but not list deposits, is asked all the same."""
    page = stand.chromium("petra")
    page.wait(lambda: page.text("h1") == "Deposits")
    revise(page, "y10", "7")
    asked = page.becomes(lambda: page.all("dialog[open]"), 20)
    check(
        asked and re.search(r"can't (?:tell|say|know)", page.text("dialog")),
        "who may not list is asked before a class is changed, and told that the page can't tell what moves",
    )
    if asked:
        page.button("Cancel", "dialog").click()
        time.sleep(0.5)
    check(
        stand.json("GET", f"/deposits/{numbered(stand, 'YEARS')}")["due"] == "2034-02-01",
        "and “Cancel” changes nothing",
    )
    page.go("holds", "Holds")
    page.button("Look through the deposits").click()
    check(
        page.says("No live hold covers the deposits that are listed for you.", "#live"),
        "holds are looked for among those listed",
    )
    page.quit()


def revise(page, class_, years):
    page.go("names", "Collections and classes")
    for control, value in zip(
        page.all("main form")[1].find_elements("css selector", "input:not([type=checkbox])"), (class_, years)
    ):
        control.clear()
        control.send_keys(value)
    page.press(ENTER)


def same_years(page, stand):
    """A class that is defined as it is moves nothing."""
    revise(page, "y10", "10")
    page.wait(lambda: page.all("dialog[open]") or "keeps its deposits for 10 years" in page.text("#told"))
    said = page.text("dialog") if page.all("dialog") else page.text("#told")
    check(
        not re.search(r"moves: [1-9]|[1-9]\d* due days? move", said),
        f"the same years move no due day: {said!r}"[:150],
    )
    for box in page.all("dialog[open] button:not(.danger)"):
        box.click()
    page.wait(lambda: not page.all("dialog[open]"))


def by_number(page, stand):
    """A release by number says as much as one by its row; then its message has the focus."""
    hold = stand.json("POST", "/holds", {"class": "good", "matter": "Case by number"})["hold"]
    page.go("holds", "Holds")
    page.button("Look through the deposits").click()
    page.awaits("Case by number", "#live")
    page.put("Number of the hold", str(hold) + ENTER)
    page.wait(lambda: page.all("dialog[open]"))
    said = page.text("dialog")
    final = "can't be put back" in said and "Case by number" in said
    check(final, "a release by number says that it is final, and the matter that was seen")
    page.button("Release", "dialog").click()
    page.awaits("was released", "#told")
    time.sleep(0.5)
    check(focus_in(page, "#told"), "after a release its message has the focus")
    page.go("deposit/2", "Deposit 2")
    page.put("Matter", "Case of the focus")
    page.button("Place a hold").click()
    page.awaits("Case of the focus", "#holds")
    page.dialog(
        next(row for row in page.all("#holds tbody tr") if "of the focus" in row.text).find_element(
            "css selector", "button"
        )
    )
    page.button("Release", "dialog").click()
    page.awaits("was released", "#told")
    time.sleep(0.7)
    check(focus_in(page, "#told"), "and so on the page of a deposit")


def focus_in(page, selector):
    return page.run("return !!document.activeElement.closest(arguments[0])", selector)


def no_match(page, stand):
    page.go("deposits", "Deposits")
    page.awaits("listed", "#count")
    page.put("Accession contains", "nothing like this")
    said = page.becomes(lambda: not page.all("#list tbody tr")) and page.text("#list")
    check(said and "lets you list" not in said, f"a search without a match has a sentence of its own: {said!r}")
    page.put("Deposit with the number", "2a" + ENTER)
    check(
        page.says("Write a number from 1 to 9,999,999 here."),
        "and what isn't a deposit's number is refused in the page",
    )


def many_due(page, stand):
    """More than are shown; and a class that keeps permanently."""
    page.go("deposits", "Deposits")
    page.run(
        """window.real = fetch; window.fetch = (u, o) => u.endsWith('/due') ? Promise.resolve(new Response(
        JSON.stringify({day: '2024-03-01', deposits: Array.from({length: 501}, (_, i) => i + 1)}))) : real(u, o)"""
    )
    page.go("due", "Due today")
    check(
        page.says("The first 500 are shown. The rest follow") and len(page.all("main tbody tr")) == 500,
        "of 501 that are due 500 are shown, with how to see the rest",
    )
    page.run("window.fetch = real")
    page.go("deposit/3", "Deposit 3")
    check(page.says("kept permanently", "#state"), "a deposit of a class that keeps permanently says so")


def hold_not_placed(page, stand):
    """A hold whose request is lost is looked for, and not found."""
    page.go("deposit/3", "Deposit 3")
    page.put("Matter", "Case that never came")
    page.run(
        "window.real = fetch; "
        "window.fetch = (u, o) => o.method === 'POST' ? Promise.reject(new TypeError()) : real(u, o)"
    )
    page.button("Place a hold").click()
    check(
        page.says("the office has no such hold: none was placed.", "#told"),
        "a hold whose request is lost is said not to be placed",
    )
    page.run("window.fetch = real")


def unknown_caller(stand):
    """Without the proxy's line that names the user."""
    stand.nginx(lambda text: text.replace("add_header Depot-User $office_user always;", ""))
    page = stand.chromium()
    page.wait(lambda: page.text("h1") == "Deposits")
    check(page.text("#caller") == "unknown", "a page that isn't told the caller's name doesn't make one up")
    page.quit()
    stand.nginx()


def lacking_texts(page, stand):
    """A translation that lacks texts shows their names in their place, and loses nothing."""
    number = placed(stand, "LACKING")
    with without(page, stand, "delete texts.skip, delete texts.sortBy"):
        stands = page.becomes(lambda: page.all("h1") and page.text("h1") == "Deposits", 15)
        check(stands and "sortBy" in page.text(), "a text that words.js lacks is shown by its name")
    with without(page, stand, "delete texts.certificateSays, delete texts.refusal.Gone, delete texts.refusal.Other"):
        page.go(f"deposit/{number}", f"Deposit {number}")
        page.awaits("No live hold", "#holds")
        page.destroy("LACKING")
        check(
            page.becomes(lambda: page.text("h1") == "Certificate of destruction", 15),
            "and no certificate is lost for it",
        )
        page.run("dispatchEvent(new Event('hashchange'))")
        check(page.becomes(lambda: page.all("main .refusal") and not page.all("#failed"), 15), "nor a refusal")


@contextlib.contextmanager
def without(page, stand, deletion):
    """The page with a words.js that lacks some texts."""
    words = stand.room / "words.js"
    whole = words.read_text()
    words.write_text(whole.replace("const noted", deletion + ";\nconst noted", 1))
    page.driver.execute_cdp_cmd("Network.setCacheDisabled", {"cacheDisabled": True})
    page.driver.get(stand.url + "/room/?" + deletion.split(".")[1])
    try:
        yield
    finally:
        words.write_text(whole)
        page.run("sessionStorage.removeItem('lacking')")
        page.driver.get(stand.url + "/room/")
        page.wait(lambda: page.text("h1") == "Deposits")


def narrow(stand):
    """On a narrow screen the dialog that destroys begins with its heading, which has the focus."""
    page = stand.chromium("anna", 320, 600)
    page.wait(lambda: page.text("h1") == "Deposits")
    page.go("deposit/2", "Deposit 2")
    page.destroy()
    time.sleep(0.3)
    top, focused = page.run(
        "const b = document.querySelector('dialog'), h = b.querySelector('h2');"
        "return [h.getBoundingClientRect().top, document.activeElement === h]"
    )
    check(
        0 <= top < 600 and focused,
        f"at 320 pixels the dialog begins with its heading, which has the focus ({top:.0f})",
    )
    page.press(ESCAPE)
    page.quit()


def parted(*tasks):
    """Each task by itself: one that is stopped fails, and the next goes on."""
    for task, *words in tasks:
        try:
            task(*words)
        except Exception as e:
            check(False, f"{task.__name__} was stopped: {str(e)[:600]}")


def all_papers(stand):
    stand.office.serve("2024-03-01")
    seed(stand)
    placed(stand, "YEARS", "y10")
    page = stand.chromium()
    page.awaits("deposits are listed")
    both = page, stand
    for task in (
        swapped,
        described,
        twice,
        one_dialog,
        certificate_stays,
        receipt_stays,
        slow_page,
        chosen_folders,
        what_is_no_bag,
        nothing_to_deposit,
        unread_form,
        same_years,
        by_number,
        no_match,
        many_due,
        hold_not_placed,
    ):
        parted((task, *both))
        if page.all("dialog[open], #failed"):  # (a check that failed may leave one)
            page.driver.get(stand.url + "/room/?" + task.__name__)
            page.wait(lambda: page.text("h1"))
    for task in (hidden, revised_unseen, unknown_caller, narrow, new_day):
        parted((task, stand))
    parted((day_of_others, *both))
    parted((lacking_texts, *both))
    page.quit()
