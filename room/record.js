// A deposit: its record, holds, files and audit; and its disposal, one at a time.
import words from "./words.js";
import { h, p, note, t, nodes, filled, plain, shown, shownPath, number, size, table, facts, section, scrolled, field,
  input, choice, judged, button, form, asks, good, alarm, asking, place, dialog, sure, page, save, paper, unanswered }
  from "./dom.js";
import * as office from "./office.js";
import { readForm, utf8 } from "./bags.js";
import { digests } from "./judging.js";
import { zip, isRisky } from "./zip.js";
import { NAME, NUMBER, textOf, isDue, link } from "./lists.js";

const goodMatter = text => text.isWellFormed() && utf8(text).length >= 1 && utf8(text).length <= 200 &&
  !/[\0-\x1f\x7f]/.test(text);
const KEYS = ["accession", "collection", "class", "closed", "deposited", "due", "files", "bytes"];
export const recordLines = r => KEYS.map(key => [key, textOf(r, key)]);
const recordFacts = r => facts(recordLines(r).map(([key, value]) => [key, shown(value)]));
// The files of a bag, its payload first, each with its checksum from the manifests.
function fileTable(files, action) {
  const sums = digests(files), isPayload = f => f.path.startsWith("data/");
  const payload = files.filter(isPayload), tags = files.filter(f => !isPayload(f));
  const about = f => isPayload(f) ? null : h("span", { class: "help" }, " ", t("tagFile"));
  const columns = [["path", "wide"], ["bytes", "n"], ["digest", "sum"], ...action ? [["action"]] : []];
  const list = table(t("fileCount", { files: t("file", { n: payload.length }), tags: t("file", { n: tags.length }) }),
    columns, [...payload, ...tags].map(f => [[shownPath(f.path), about(f)], size(f.size),
      shown(sums.get(f.path) ?? "–", "code"), ...action ? [action(f)] : []]));
  list.setAttribute("tabindex", "-1");
  return [list, note("help", t("marks"))];
}
// The files of a form that the office sent.
function filesOf(bytes) {
  const { files, fault } = readForm(bytes);
  if (fault) throw new office.Refusal(200, { error: "Other", fault });     // (it was changed on its way)
  return files;
}
// Holds, each with what it is on and a button that releases it. What was shown is known when one is released by number.
const known = new Map();
const target = (x, isLink) =>
  filled(words.holdOn[x.on], { name: isLink && x.on === "deposit" ? link(x.name) : shown(x.name) });
export function holdTable(caption, holds, out, then, isOfAll) {
  const release = async k => { if (await releaseHold(k, out)) then(); };
  for (const x of holds) known.set(x.hold, x);
  return table(caption, [["hold", "n"], ["matter", "wide"], ["on"], ["placed"], ...isOfAll ? [["covers", "n"]] : [],
    ["action", "noprint"]], holds.map(x => [x.hold, shown(x.matter), target(x, isOfAll), x.placed,
    ...isOfAll ? [number(x.covers)] : [],
    button("release", () => release(x.hold), { "aria-label": t("releaseNo", { n: String(x.hold) }) })]), true);
}
export async function releaseHold(k, out) {
  const n = String(k), x = known.get(k);
  const what = x && [nodes("releaseWhat", { n, matter: shown(x.matter), on: target(x) }), " "];
  return await sure(t("releaseAsk", { n }), [what, t("releaseSays")], "release") && office.change(out, async () =>
    good(out, t("released", { n, day: (await office.release(k)).released })).focus());
}
// Places a hold on what is chosen by `on`: this name, or that in the field `target`, if there is one. If the answer is
// lost, the hold itself is looked for.
export function holdForm(out, on, name, then, target) {
  const matter = input({ maxlength: 200 });
  const ask = async (...hold) => {
    asking(out);
    try {
      const n = String((await office.hold(...hold)).hold);
      good(out, t("placedNow", { n }));
      matter.value = "";
    } catch (e) {
      const found = e.isUncertain ? await office.look(() => office.holdOf(...hold)).catch(() => null) : null;
      if (found) good(out, t("placedLost", { n: String(found.hold), day: found.placed }));
      else if (found === undefined) alarm(out, t("notPlaced"));
      else office.refuse(out, e);
      if (found) matter.value = "";
    }
    then();
  };
  return asks("place", "place", async () => {
    const [good, key] = on.value === "deposit" ? [NUMBER, "badNumber"] : [NAME, "badName"];
    if (judged([...target ? [[target, good.test(target.value), key]] : [],
      [matter, goodMatter(matter.value), "badMatter"]])) await unanswered(() => ask(on.value, name(), matter.value));
  }, field("placeOn", on), target && field("targetName", target), field("matter", matter, t("matterHelp")));
}
export async function deposit(n) {
  const r = await office.record(n), status = h("p", { class: "row", id: "state" });
  const [out, held, outFiles, files, outAudit, outEnd] =
    ["told", "holds", "told-files", "files", "told-audit", "told-end"].map(id => h("div", { id }));
  const loadHolds = async () => {
    let live;
    try { live = await office.holds(n); } catch (e) { office.refuse(held, e); }
    const key = r.due === "permanent" ? "statePermanent" : isDue(r) ? "stateDue" : "stateNotDue";
    place(status, h("span", { class: "chip " + key }, t(key, { day: r.due })),
      live?.length > 0 && h("span", { class: "chip held" }, t("stateHeld", { n: live.length })));
    if (live) place(held, !live.length ? p(t("noHolds")) :
      holdTable(t("pageHolds"), live.map(x => ({ ...x, name: r[x.on] })), out, loadHolds));
  };
  const on = choice(["deposit", "collection", "class"].map(kind =>
    [kind, filled(words.holdOn[kind], { name: plain(String(r[kind])) })]));
  const audit = () => office.tried(outAudit, async () => {
    const before = (await office.due()).day, a = await office.audit(n), day = await office.stillOn(before);
    if (a.valid) good(outAudit, t("auditGood", { files: t("file", { n: a.files }), size: size(a.bytes),
      manifests: t("manifest", { n: a.manifests }) }), day && " " + t("auditDay", { day }));
    else alarm(outAudit, p(h("strong", {}, t("auditBad")), " ", office.faultWords(a.fault)[0]),
      p(t("auditTodo")), note("help", t("code"), " ", shown(a.fault, "code")));
  });
  const withBag = then => office.tried(outFiles, () => office.bag(n).then(bytes => then(bytes, filesOf(bytes))));
  const saved = (bytes, name, more) => good(outFiles, t("saved", { name: save(bytes, name) }), more);
  const asZip = () => withBag((_, found) => {
    const k = found.filter(isRisky).length, more = k > 0 && " " + t("zipRenamed", { n: k });
    saved(zip(r.accession, found, r.deposited), r.accession + ".zip", more);
  });
  const download = path => office.tried(outFiles, async () => saved(await office.file(n, path), path.split("/").pop()));
  const showFiles = () => withBag((_, found) => {
    place(files, fileTable(found, f => button("download", () => download(f.path),
      { "aria-label": t("downloadNamed", { name: plain(f.path) }) })));
    files.querySelector("table").focus();
  });
  loadHolds();
  return [status, recordFacts(r), section("h-holds", t("pageHolds"), held, out,
    holdForm(out, on, () => r[on.value], loadHolds)),
    section("h-files", t("files"), note("row", button("showFiles", showFiles), button("zip", asZip),
      button("bagset", () => withBag(bytes => saved(bytes, r.accession + ".bagset")))), outFiles, files),
    section("h-audit", t("auditHead"), note("help", t("auditHelp")), button("audit", audit), outAudit),
    h("section", { class: "end" }, outEnd,
      button("dispose", () => destroy(n, outEnd), { class: "danger", id: "dispose" }))];
}
// Nothing is destroyed but this one deposit, after its record and files were shown and its accession typed.
async function destroy(n, out) {
  let r, live, found, isAltered;
  const unseen = e => { isAltered = e.body?.what === "altered"; if (e.status !== 403 && !isAltered) throw e; };
  if (!await office.tried(out, async () => {
    await office.due();                          // (it may be another day by now)
    r = await office.record(n);
    live = await office.holds(n).catch(unseen);
    found = await office.bag(n).then(filesOf).catch(unseen);
  }) || !out.isConnected) return;
  const ask = async told => {
    try { return { day: (await office.dispose(n)).day }; } catch (e) {
      if (e.isUncertain) {
        const day = await office.look(() => office.goneOn(n)).catch(() => { throw e; });
        if (day) return { day, lost: true };
        alarm(told, t("disposeNot"));
        return null;
      }
      if (e.body.error === "Held")               // the office says the number alone
        e.body.matter = (await office.holds(n).catch(() => [])).find(x => x.hold === e.body.hold)?.matter;
      throw e;
    }
  };
  await dialog(t("disposeHead", { n: String(r.deposit) }), answer => {
    const typed = input(), told = h("div", {}), cancel = button("cancel", () => answer(null));
    const warn = (is, key) => is && note("warn", t(key));
    const submit = async () => {
      if (!judged([[typed, typed.value.trim() === r.accession, "disposeWrong", { name: shown(r.accession) }]])) return;
      cancel.disabled = true;
      await office.change(told, async () => {
        const gone = await ask(told);
        if (gone) { answer(null); certificate(r, gone, found, isAltered); }
      }).finally(() => cancel.disabled = false);
    };
    return [p(t("disposeSays")), recordFacts(r), warn(live?.length > 0, "disposeHeld"),
      warn(!live, "disposeUnseen"), warn(!isDue(r), "disposeNotDue"), h("h3", {}, t("disposeFiles")),
      scrolled(t("disposeFiles"), found ? fileTable(found) : note(isAltered && "warn",
        t(isAltered ? "disposeAltered" : "disposeHidden", { files: t("file", { n: r.files }), size: size(r.bytes) }))),
      form({ class: "confirm", "aria-labelledby": "dialog-title" }, submit, told,
        field("disposeType", typed, null, { name: shown(r.accession) }),
        note("row", cancel, h("button", { class: "danger" }, t("disposeDo"))))];
  });
}
function certificate(r, { day, lost }, found, isAltered) {
  const lines = [["number", String(r.deposit)], ...recordLines(r).slice(0, -1),
    ["bytes", t("byte", { n: r.bytes })], ["destroyedOn", day], ["destroyedBy", office.caller()]];
  const sums = found && digests(found), unseen = found ? "" : t(isAltered ? "certificateAltered" : "certificateHidden");
  const list = !found ? unseen : [t("certificateFiles") + ":",
    ...found.map(f => `${sums.get(f.path) ?? "-"}  ${f.size}  ${plain(f.path)}`)].join("\n");
  page(t("certificate"), h("p", { role: "status" }, t("certificateSays")),
    lost && note("warn", t("certificateLost")), note("noprint", t("certificateOnce")),
    paper(t("certificate"), lines, t("certificateFile", { name: r.accession }), list + "\n"), note("sign", t("sign")),
    found ? [h("h2", {}, t("certificateFiles")), fileTable(found)] : p(unseen));
}
