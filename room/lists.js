// Deposits, those that come due soon, and those that are due today.
import words from "./words.js";
import { h, note, t, shown, number, size, table, field, input, choice, judged, button, asks, checkbox, tick, announce,
  place, again } from "./dom.js";
import * as office from "./office.js";

export const NAME = /^[a-z0-9._-]{1,40}$/, NUMBER = /^[1-9]\d{0,6}$/;
export const link = (n, text) => h("a", { href: "#/deposit/" + n }, text ?? shown(n));
export const dueText = due => due === "permanent" ? t("permanent") : due;
const TEXTS = { due: dueText, files: number, bytes: size };
export const textOf = (r, key) => (TEXTS[key] ?? String)(r[key]);
export const isDue = r => r.due !== "permanent" && r.due <= office.office.day;
// The names that the page knows: those of the listed deposits, and those defined here since it was loaded.
export const names = { collection: new Set(), class: new Set() };
export function learn(rows, defined = {}) {
  for (const kind of Object.keys(names)) {
    for (const r of [...rows, defined]) if (r[kind]) names[kind].add(r[kind]);
    place(document.getElementById("names-" + kind), [...names[kind]].sort().map(value => h("option", { value })));
  }
}
export const nameInput = kind => input({ list: "names-" + kind, maxlength: 40 });
const COLUMNS = [["number", "n", "deposit"], ["accession"], ["collection"], ["class"], ["closed"], ["due"],
  ["files", "n"], ["bytes", "n"]];
const dayAfter = (day, days) => new Date(Date.parse(day) + 86400000 * days).toISOString().slice(0, 10);
const PER_PAGE = 50;
// The words after the page's name: a time within which the deposits come due.
export function deposits(soon = "") {
  const collection = nameInput("collection"), className = nameInput("class"), part = input({ maxlength: 64 });
  const within = choice(Object.entries(words.withinDays), soon);
  const sort = choice(COLUMNS.map(([key, , name = key]) => [name, t(key)]), soon ? "due" : "deposit");
  const down = checkbox("down"), out = h("div", { id: "list" }), wanted = input({ inputmode: "numeric", maxlength: 7 });
  let rows = [], chosen = [], from = 0;
  const choose = () => {                          // anew only when the choice changes: of 100,000 it takes its time
    const last = within.value && dayAfter(office.office.day, Number(within.value)), key = sort.value;
    const sought = part.value.trim().toLowerCase(), order = down.checked ? -1 : 1;
    chosen = rows.filter(r => r.accession.toLowerCase().includes(sought) && (!last || r.due <= last));
    chosen.sort((a, b) => order * (a[key] < b[key] ? -1 : a[key] > b[key] ? 1 : a.deposit - b.deposit));
    from = 0;
    show();
  };
  const turn = (id, step) => button(id, () => {
    from += step;
    show();
    out.querySelector(`#${id}:enabled, #previous:enabled, #next:enabled`).focus();
  }, { id, disabled: from + step < 0 || from + step >= chosen.length });
  const show = () => {
    const some = chosen.slice(from, from + PER_PAGE), n = chosen.length;
    const said = t(n ? "listed" : rows.length ? "listedOther" : "listedNone", { n });
    const columns = COLUMNS.map(([key, kind, name = key]) =>
      [key, kind, name === sort.value && (down.checked ? "descending" : "ascending")]);
    place(out, h("p", { id: "count" }, said),
      n > 0 && table(t("pageOf", { from: from + 1, to: from + some.length, n }), columns,
        some.map(r => [link(r.deposit), ...COLUMNS.slice(1).map(([key]) => shown(textOf(r, key)))])),
      n > PER_PAGE && note("row", turn("previous", -PER_PAGE), turn("next", PER_PAGE)));
    announce(said);
  };
  const load = async () => {
    if (!judged([collection, className].map(c => [c, !c.value || NAME.test(c.value), "badName"]))) return;
    office.tried(out, async () => {               // (not waited for: a later choice counts)
      rows = await office.list({ collection: collection.value, class: className.value });
      choose();
      learn(rows);
    });
  };
  const open = () => {                            // (who may not list may still open a deposit)
    if (judged([[wanted, NUMBER.test(wanted.value), "badNumber"]])) location.hash = "#/deposit/" + wanted.value;
  };
  part.addEventListener("input", choose);
  for (const control of [within, sort, down]) control.addEventListener("change", choose);
  setTimeout(load);
  return [asks("filter", "show", load, field("collection", collection), field("class", className)),
    h("div", { class: "row", role: "group", "aria-label": t("among") },
    field("contains", part), field("within", within), field("sortBy", sort), tick(down, "descending")),
    soon ? note("help", t("soonHelp")) : asks("openNumber", "openIt", open, field("openNumber", wanted)), out];
}
// The office says numbers alone, of those that it would destroy; the rest is of the list, as far as it goes.
export async function due() {
  const { day, deposits: due } = await office.due(), n = due.length, first = due.slice(0, 500);
  const rows = new Map(n ? (await office.list({})).map(r => [r.deposit, r]) : []);
  learn([...rows.values()]);
  const columns = COLUMNS.filter(([key]) => key !== "closed").map(each => each.slice(0, 2));
  const cell = (r, key) => r ? shown(textOf(r, key)) : t("unlisted");
  const review = k => h("a", { href: "#/deposit/" + k, "aria-label": t("reviewNo", { n: String(k) }) }, t("review"));
  return [h("p", { id: "count" }, n ? t("dueSome", { n, day }) : t("dueNone", { day })),
    note("row noprint", button("refresh", again), button("print", () => print())),
    n > 0 && [note("help noprint", t("dueHelp")),
      table(t("pageOf", { from: 1, to: first.length, n }), [...columns, ["action", "noprint"]],
        first.map(k => [String(k), ...columns.slice(1).map(([key]) => cell(rows.get(k), key)), review(k)])),
      n > first.length && note("warn", t("dueFirst", { n: first.length })),
      note("sign", t("approved"))], note("help noprint", t("dueGone"))];
}
