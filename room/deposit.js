// A new deposit: what is chosen is judged, the office is asked whether it would take it, and then it is sent.
import { h, p, note, t, nodes, plain, shown, shownPath, number, size, table, field, section, scrolled, input,
  checkbox, tick, judged, form, alarm, place, page, paper, progressBar, unanswered } from "./dom.js";
import * as office from "./office.js";
import * as bags from "./bags.js";
import { bagFault } from "./judging.js";
import { NAME, names, nameInput, learn, link } from "./lists.js";
import { recordLines } from "./record.js";

const ACCESSION = /^[A-Za-z0-9._-]{1,64}$/;
const goodDay = day => /^\d{4}-\d\d-\d\d$/.test(day) && day >= "1900-01-01" && day <= office.office.day;
// Each folder with the number of files in it, to be compared with what the officer has.
const folderTable = paths => scrolled(t("folders"), table(t("folders"), [["folder", "wide"], ["files", "n"]],
  [...Map.groupBy(paths, path => path.slice(0, path.lastIndexOf("/") + 1))].map(([name, all]) =>
    [name ? shownPath(name) : t("topFolder"), number(all.length)])));

export async function newDeposit() {
  if (!names.collection.size) try { learn(await office.list({})); } catch { /* the names are typed */ }
  let what = null, turn = 0;              // {form} that is sent as it is, or the {files, sums} of a plain folder
  const folder = h("input", { type: "file", webkitdirectory: true, id: "folder" });
  const formFile = h("input", { type: "file", accept: ".bagset", id: "form" });
  const [told, seen] = ["told", "seen"].map(id => h("div", { id }));
  const collection = nameInput("collection"), className = nameInput("class"), accession = input({ maxlength: 64 });
  const closed = h("input", { type: "date", min: "1900-01-01", max: office.office.day });
  const description = input({ maxlength: 1000, autocapitalize: "sentences", spellcheck: "true" });
  const describe = field("description", description, t("descriptionHelp")), anyway = checkbox("anyway");
  const cannot = (...content) => {
    turn++;                               // what is being judged is no longer what is chosen
    what = null;
    alarm(seen, p(h("strong", {}, t("cannot"))), content);
  };
  const fails = e => {                    // what a folder or the browser, not the office, doesn't allow
    if (!e.unfit) throw e;
    const { unfit, path = "", size: bytes = 0, n } = e;
    if (unfit === "unnamed") cannot(office.faultSaid("NAME " + encodeURI(path)));
    else cannot(p(nodes(unfit, { path: shown(path), size: size(bytes), n })));
  };
  const judge = async ({ files, size: bytes, count, system, isBag }, text, whole) => {
    const mine = ++turn, progress = progressBar(seen, t("deposit")), sums = [], box = h("div"), n = files.length;
    const hashing = (done, all) => progress(t("hashing", { done, n: all }), done, all);
    describe.hidden = isBag;
    for (const [i, f] of files.entries()) {
      f.content ??= await bags.read(f);
      progress(t("reading", { done: i + 1, n }), i + 1, n);
    }
    if (!isBag) for (const f of files) hashing(sums.push(await bags.sha256(f.content)), n);
    const fault = isBag && await bagFault(files, hashing);
    if (mine !== turn) return;            // something else was chosen meanwhile
    what = { files, sums, fault, form: isBag ? whole ?? bags.form(files) : null };
    place(seen, h("p", { class: "good", role: "status" }, t(text), " ", t("file", { n }), "."),
      p(h("meter", { min: 0, max: bags.MOST_BYTES, value: bytes, "aria-hidden": "true" }), " ",
        t("room", { size: size(bytes), files: number(count) })), whole ? null : [note("help", t("compare")),
        folderTable(files.map(f => f.path.slice(isBag ? 0 : 5)))], system.length > 0 && note("warn",
        t(isBag ? "systemInBag" : "omitted", { n: system.length, names: system.map(plain).join(", ") })), box);
    anyway.checked = false;
    const hasData = files.some(f => f.path.startsWith("data/")), isStray = !whole && /^B[25]\b/.test(fault);
    const advice = cure => isStray ? [hasData ? [cure, " "] : [], t("stray")] : cure;   // (it may be no bag at all)
    if (fault) alarm(box, p(h("strong", {}, t("wouldRefuse"))), office.faultSaid(fault, advice),
      tick(anyway, "anyway"));
  };
  const take = async action => { what = null; try { await action(); } catch (e) { fails(e); } };
  const takeFolder = list => take(async () => {
    const all = bags.measured(await list());
    await judge(all, all.isBag ? "isBag" : "isPlain");
  });
  const takeForm = blob => take(async () => {
    const bytes = blob.size <= bags.MOST_BYTES && await bags.read({ blob, size: blob.size, path: blob.name });
    const { files, fault } = bytes ? bags.readForm(bytes) : { fault: "SIZE" };
    if (fault) cannot(office.faultSaid(fault));
    else await judge({ files, size: bytes.length, count: files.length, system: [], isBag: true }, "isForm", bytes);
  });
  folder.addEventListener("change", () => { formFile.value = ""; takeFolder(() => bags.chosen(folder.files)); });
  formFile.addEventListener("change", () => { folder.value = ""; for (const f of formFile.files) takeForm(f); });
  const zone = section("h-1", t("step1"), h("p", { class: "drop", id: "drop", "aria-hidden": "true" }, t("drop")),
    h("div", { class: "row" }, field("chooseFolder", folder), field("chooseForm", formFile)), seen);
  zone.addEventListener("dragover", e => { e.preventDefault(); zone.classList.add("over"); });
  zone.addEventListener("dragleave", () => zone.classList.remove("over"));
  zone.addEventListener("drop", e => {
    e.preventDefault();
    zone.classList.remove("over");
    if (folder.disabled) return;          // what was chosen before is being deposited
    folder.value = formFile.value = "";
    const items = [...e.dataTransfer.items].filter(i => i.kind === "file").map(i => i.webkitGetAsEntry());
    if (items.length !== 1 || !items[0]) cannot(p(t("dropOne")));
    else if (items[0].isDirectory) takeFolder(() => bags.dropped(items[0]));
    else items[0].file(takeForm, () => fails(bags.unfit("changed", items[0].name)));
  });
  const send = async (chosen, about, described) => {
    const { files, sums } = chosen, progress = progressBar(told, t("deposit"));
    try {
      progress(t("dryRun"));
      const { day } = await office.due();                          // (it may be another day by now)
      closed.max = day;
      if (!judged([[collection, NAME.test(about.collection), "badName"], [className, NAME.test(about.class), "badName"],
        [accession, ACCESSION.test(about.accession), "badAccession"],
        [closed, goodDay(about.closed), "badDay", { day }]])) { place(told); return; }
      await office.wouldTake(about);
      for (const f of files) if (f.blob) await bags.read(f);       // what was judged is what is sent
      const sent = chosen.form ??
        await bags.bagOf(files, sums, { accession: about.accession, day, description: described });
      const sending = (done, n) =>
        progress(done < n ? t("sending", { done: size(done), n: size(n) }) : t("judging"), done, n);
      let n, lost = false;
      try { n = await office.deposit(about, sent, sending); } catch (e) {
        if (!e.isUncertain) throw e;
        lost = true;
        progress(t("lost"));
        n = await office.look(() => office.depositOf(about, sent));
        if (n === null) { alarm(told, t("lostNot")); return; }
      }
      await receipt(n, about, sent, lost, day);
    } catch (e) {
      if (!e.unfit) office.refuse(told, e); else { place(told); fails(e); }
    }
  };
  const submit = async () => {
    const chosen = what;                  // this is deposited, and nothing that is chosen or written meanwhile
    if (!chosen) { alarm(told, t("chooseFirst")); folder.focus(); return; }
    if (chosen.fault && !anyway.checked) { alarm(told, t("anywayFirst")); anyway.focus(); return; }
    const about = { collection: collection.value, class: className.value, accession: accession.value,
      closed: closed.value };
    folder.disabled = formFile.disabled = true;
    await unanswered(() => send(chosen, about, description.value))
      .finally(() => folder.disabled = formFile.disabled = false);
  };
  return [zone, form({ class: null, "aria-labelledby": "h-2" }, submit, section("h-2", t("step2"),
    h("div", { class: "row" }, field("collection", collection, t("nameHelp")),
      field("class", className, t("nameHelp")), field("accession", accession, t("accessionHelp")),
      field("closed", closed, t("closedHelp"))), describe),
  section("h-3", t("step3"), h("button", { id: "go" }, t("deposit")), told))];
}
async function receipt(n, about, form, lost, before) {
  const r = await office.record(n).catch(e => e), isRead = r.deposit === n;
  const day = !isRead && await office.stillOn(before);         // the day of the deposit, if it didn't change meanwhile
  const lines = [["number", String(n)], ...isRead ? recordLines(r) :
    Object.entries({ ...about, ...day && { deposited: day } }), ["receiptBy", office.caller()],
  ["receiptForm", await bags.sha256(form)]];
  const anew = Number(location.hash.split("/")[2] || 0) + 1;   // another address, so that the page is built anew
  page(t("receipt"), h("p", { class: "good", role: "status" }, lost ? t("lostFound") : t("receiptSays")),
    !isRead && note("warn", t(r.status === 403 ? "receiptUnseen" : "receiptUnread")),
    paper(t("receipt"), lines, t("receiptFile", { name: about.accession })), note("row noprint",
      link(n, t("open", { n: String(n) })), h("a", { href: "#/new/" + anew }, t("another"))));
}
