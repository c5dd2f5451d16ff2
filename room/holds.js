// Holds; and collections and classes.
import words from "./words.js";
import { h, p, note, t, shown, number, table, section, field, input, choice, judged, button, asks, checkbox, tick,
  good, place, sure, progressBar } from "./dom.js";
import * as office from "./office.js";
import { NAME, NUMBER, nameInput, learn, isDue } from "./lists.js";
import { holdForm, releaseHold, holdTable } from "./record.js";

export function holds() {
  const out = h("div", { id: "told" }), live = h("div", { id: "live" });
  const on = choice(Object.entries(words.target)), target = input({ maxlength: 40 });
  const held = input({ inputmode: "numeric", maxlength: 7 });
  on.addEventListener("change", () => target.setAttribute("list", "names-" + on.value));
  const releasing = async () => {
    if (judged([[held, NUMBER.test(held.value), "badNumber"]]) && await releaseHold(Number(held.value), out))
      held.value = "";
  };
  const look = () => {
    const seen = new Map();
    let denied = 0;
    return office.tried(live, async () => {
      const rows = await office.list({}), n = rows.length, progress = progressBar(live, t("holdsLook"));
      learn(rows);
      for (const [i, r] of rows.entries()) {
        let some = [];
        try { some = await office.holds(r.deposit); } catch (e) {
          if (e.status === 403) denied++; else if (e.status !== 410) throw e;    // (410: it was destroyed meanwhile)
        }
        for (const x of some) {
          if (!seen.has(x.hold)) seen.set(x.hold, { ...x, name: r[x.on], covers: 0 });
          seen.get(x.hold).covers++;
        }
        if (!live.isConnected) return;                                           // another page is shown
        progress(t("holdsSeen", { done: i + 1, n }), i + 1, n);
      }
      showHolds([...seen.values()].sort((a, b) => a.hold - b.hold), n, denied);
    });
  };
  const showHolds = (all, n, denied) => place(live, h("p", { role: "status" }, t("holdsSeen", { done: n, n })),
    denied > 0 && note("warn", t("holdsDenied", { n: denied })),
    all.length ? holdTable(t("holdsLive"), all, out, look, true) : p(t("holdsNone")));
  return [out, section("h-place", t("place"), holdForm(out, on, () => target.value, () => {}, target)),
    section("h-release", t("holdsRelease"), asks("holdsRelease", "release", releasing, field("holdNumber", held))),
    section("h-live", t("holdsLive"), note("help", t("holdsHelp")),
      button("holdsLook", look, { class: "noprint" }), live)];
}
// The due day by docs/POLICY.md: it tells only what a change of a class would do, before it is asked for.
const isLeap = y => y % 4 === 0 && (y % 100 !== 0 || y % 400 === 0);
function dueAfter({ closed }, years) {
  if (years === null) return "permanent";
  const y = Number(closed.slice(0, 4)) + years, rest = closed.slice(4);
  return y + (rest === "-02-29" && !isLeap(y) ? "-02-28" : rest);
}
export async function names() {
  const rows = await office.list({}), out = h("div", { id: "told" });
  learn(rows);
  const collection = input({ maxlength: 40 }), className = nameInput("class"), forever = checkbox("forever");
  const years = input({ inputmode: "numeric", maxlength: 3 });
  forever.addEventListener("change", () => years.disabled = forever.checked);
  const nameCheck = control => {                  // (a browser takes /classes/.. for /)
    const isDots = control.value === "." || control.value === "..";
    return [control, NAME.test(control.value) && !isDots, isDots ? "dotName" : "badName"];
  };
  const defineCollection = () => {
    if (!judged([nameCheck(collection)])) return null;
    return office.change(out, async () => {
      const done = await office.defineCollection(collection.value);
      learn([], done);
      good(out, t("collectionDefined", { name: done.collection }));
      collection.value = "";
    });
  };
  const defineClass = async () => {
    const isNumber = /^(0|[1-9]\d{0,2})$/.test(years.value) && Number(years.value) <= 200;
    if (!judged([nameCheck(className), [years, forever.checked || isNumber, "badYears"]])) return;
    const n = forever.checked ? null : Number(years.value), name = className.value;
    let all;
    if (!await office.tried(out, async () => { all = await office.list({ class: name }); }) || !out.isConnected) return;
    const will = all.map(r => dueAfter(r, n)), moves = will.filter((day, i) => day !== all[i].due).length;
    const before = all.filter(isDue).length, after = will.filter(day => day <= office.office.day).length;
    const text = moves ? t("classSays", { n: moves, before, after }) : t("classSame");
    if (!await sure(t("classAsk", { name }), [text, " ", t("classUnseen")], "define")) return;
    await office.change(out, async () => {
      const done = await office.defineClass(name, n);
      learn([], done);
      good(out, t(done.years === null ? "classForever" : "classYears", { name: done.class, n: done.years }));
    });
  };
  const inUse = kind => [...Map.groupBy(rows, r => r[kind])].sort(([a], [b]) => a < b ? -1 : 1);
  const yearsOf = ([r]) => r.due === "permanent" ? t("permanent") : number(r.due.slice(0, 4) - r.closed.slice(0, 4));
  return [out, section("h-collection", t("defineCollection"), asks("defineCollection", "define", defineCollection,
    field("collection", collection, t("nameHelp")))),
  section("h-class", t("defineClass"), asks("defineClass", "define", defineClass,
    field("class", className, t("nameHelp")), field("years", years, t("yearsHelp")), tick(forever, "keepForever"))),
  section("names", t("known"), note("help", t("knownHelp")), rows.length > 0 && [
    table(t("collection"), [["collection"], ["pageDeposits", "n"]],
      inUse("collection").map(([name, some]) => [shown(name), number(some.length)]), true),
    table(t("class"), [["class"], ["years", "n"], ["pageDeposits", "n"]],
      inUse("class").map(([name, some]) => [shown(name), yearsOf(some), number(some.length)]), true)])];
}
