// Elements, texts and values. No text ever becomes HTML: each becomes a text node.
import words from "./words.js";

const plural = new Intl.PluralRules(words.language);
export const number = n => n.toLocaleString(words.language);
export function h(tag, attributes = {}, ...children) {
  const e = document.createElement(tag);
  for (const [key, value] of Object.entries(attributes)) {
    if (value === false || value == null) continue;
    if (key.startsWith("on")) e.addEventListener(key.slice(2), value);
    else e.setAttribute(key, value === true ? "" : value);
  }
  e.append(...visible(children));
  return e;
}
export const p = (...content) => h("p", {}, content);
export const note = (kind, ...content) => h("p", { class: kind }, content);
const visible = content => content.flat(9).filter(part => part != null && part !== false);
export function place(where, ...content) { where.replaceChildren(...visible(content)); return where.firstChild; }
// A text of words.js as a list of texts and nodes, in which {x} is replaced by values.x. The number n chooses its form.
export function filled(text, values = {}) {
  if (typeof text === "object") text = text[plural.select(values.n)] ?? text.other ?? "";
  const value = key => typeof values[key] === "number" ? number(values[key]) : values[key];
  return text.split(/\{(\w+)\}/).map((part, i) => i % 2 ? value(part) : part).flat().filter(part => part !== "");
}
export const nodes = (key, values) => filled(Object.hasOwn(words, key) ? words[key] : key, values);
export const t = (key, values) => nodes(key, values).map(part => part.nodeType ? part.textContent : part).join("");
// Others' texts. What has no shape of its own, or turns the order of what follows, is made visible, as in [U+202E].
const HIDDEN = new RegExp("[\\p{Cc}\\p{Cf}\\p{Zl}\\p{Zp}\\p{Cs}\\p{Co}\\p{Cn}" +
  "\\u00a0\\u115f\\u1160\\u3164\\uffa0\\u034f\\u2800]|\\p{Zs}(?<! )|^ | $|(?<= ) ", "gu");
const spelled = c => "[U+" + c.codePointAt(0).toString(16).toUpperCase().padStart(4, "0") + "]";
export const plain = text => text.replace(HIDDEN, spelled);
export const shown = (text, tag = "bdi") => h(tag, { class: "others" }, plain(String(text)));
export const shownPath = path => shown(path.split("/").map(plain).join("/"));      // marks each name of it by itself
const tenths = n => number(Math.ceil(n * 10) / 10);
export const size = n => n < 1024 ? t("byte", { n }) : n < 1048576 ? t("kib", { n: tenths(n / 1024) }) :
  t("mib", { n: tenths(n / 1048576) });
// Roles are written out, since a narrow page shows rows as cards, and browsers then forget that it is a table.
// A column is [key of its heading, class, how it is sorted]. A quiet caption repeats a heading: it is only heard.
export function table(caption, columns, rows, quiet) {
  const head = ([key, kind, sorted]) =>
    h("th", { role: "columnheader", scope: "col", class: kind, "aria-sort": sorted }, t(key));
  const cell = (content, i) =>
    h("td", { role: "cell", class: columns[i][1], "data-label": t(columns[i][0]) }, h("span", {}, content));
  return h("table", { role: "table" }, h("caption", { class: quiet && "quiet" }, caption),
    h("thead", { role: "rowgroup" }, h("tr", { role: "row" }, columns.map(head))),
    h("tbody", { role: "rowgroup" }, rows.map(row => h("tr", { role: "row" }, row.map(cell)))));
}
export const facts = pairs =>
  h("dl", {}, pairs.map(([key, value]) => h("div", {}, h("dt", {}, t(key)), h("dd", {}, value))));
export const section = (id, title, ...content) =>
  h("section", { "aria-labelledby": id }, h("h2", { id }, title), ...content);
export const scrolled = (label, ...content) =>
  h("div", { class: "scroll", tabindex: "0", role: "region", "aria-label": label }, content);
export const input = (attributes = {}) =>
  h("input", { autocomplete: "off", autocapitalize: "none", spellcheck: "false", ...attributes });
let ids = 0;
export function field(key, control, help, values) {
  const id = control.id || (control.id = "f" + ++ids);
  const error = h("p", { class: "wrong", id: id + "e" });
  control.setAttribute("aria-describedby", help ? `${id}h ${id}e` : id + "e");
  control.wrong = what => {                      // says what is wrong with the value, or (by null) that nothing is
    place(error, what ?? []);
    control.ariaInvalid = what && "true";
    return !what;
  };
  const told = help && h("p", { class: "help", id: id + "h" }, help);
  return h("div", { class: "field" }, h("label", { for: id }, nodes(key, values)), control, told, error);
}
// Each check is [control, whether its value is right, what is said otherwise, values]. The first wrong one is focused.
export function judged(checks) {
  const wrong = checks.filter(([control, right, key, values]) => !control.wrong(right ? null : nodes(key, values)));
  wrong[0]?.[0].focus();
  return !wrong.length;
}
const option = ([value, text], chosen) => h("option", { value, selected: value === chosen }, text);
export const choice = (options, chosen) => h("select", {}, options.map(each => option(each, chosen)));
export const checkbox = id => h("input", { type: "checkbox", id });
export const tick = (box, key) => note("check", box, h("label", { for: box.id }, t(key)));
// A call is ignored while the one before runs: a double click asks for nothing twice.
const once = (action, runs = null) => () => { runs ??= (async () => action())().finally(() => runs = null); };
export const button = (key, onclick, more = {}) =>
  h("button", { type: "button", onclick: once(onclick), ...more }, t(key));
export function form(labelled, onsubmit, ...content) {
  const submit = once(onsubmit);
  return h("form", { class: "row", novalidate: true, ...labelled, onsubmit: e => { e.preventDefault(); submit(); } },
    ...content);
}
export const asks = (label, key, onsubmit, ...content) =>
  form({ "aria-label": t(label) }, onsubmit, content, h("button", {}, t(key)));
// What a screen reader hears without a change of focus.
export function announce(text) {
  const said = document.getElementById("said");
  said.textContent = "";                          // (a text that is there already would not be heard again)
  setTimeout(() => said.textContent = text, 50);
}
// A bar with its text in a place; a screen reader hears each quarter only.
export function progressBar(where, label) {
  const bar = h("progress", { "aria-label": label }), said = p();
  let quarter = -1;
  place(where, bar, said);
  return (text, done = 1, n = 1) => {
    Object.assign(bar, { max: n, value: done });
    said.textContent = text;
    if (Math.floor(4 * done / n) !== quarter || n === 1) announce(text);
    quarter = Math.floor(4 * done / n);
  };
}
const told = (where, tag, attributes, content) => place(where, h(tag, { ...attributes, tabindex: "-1" }, content));
export const good = (where, ...text) => told(where, "p", { class: "good", role: "status" }, text);
export const asking = where => told(where, "p", { role: "status" }, t("loading"));
export const alarm = (where, ...content) => told(where, "div", { class: "refusal", role: "alert" }, content).focus();
// What is shown. `turn` counts the pages that were asked for, so that a slower one doesn't replace a later one; `at` is
// the address of the page that stands; `unanswered` counts the changes that the office was asked for and didn't answer.
export const frame = { turn: 0, at: "", unanswered: 0 };
// Does what asks for a change. Until it is answered, no other page is shown and no dialog closes: its answer is seen.
export async function unanswered(action) {
  frame.turn++;
  frame.unanswered++;
  stay();
  try { return await action(); } finally { frame.unanswered--; notice([]); }
}
export function stay() { if (location.hash !== frame.at) history.pushState(null, "", frame.at); }
const notice = text => place(document.getElementById("notice"), text);
export function notify(key) { notice(t(key)); announce(t(key)); }
// Shows that the office is asked, once that takes a while.
export async function noticed(action) {
  const timer = setTimeout(() => document.getElementById("notice").textContent ||= t("loading"), 300);
  try { return await action(); } finally { clearTimeout(timer); if (!frame.unanswered) notice([]); }
}
// A dialog that asks, one at a time. It gives what `answer` was called with, or null if it was closed.
export function dialog(title, build) {
  if (document.querySelector("dialog[open]")) return null;
  return new Promise(resolve => {
    const before = document.activeElement, head = h("h2", { id: "dialog-title", tabindex: "-1" }, title);
    // (The key, too: a second Escape closes a dialog whatever is said to its cancel.)
    const stays = e => { if (frame.unanswered && (e.key ?? "Escape") === "Escape") e.preventDefault(); };
    let result = null;
    const box = h("dialog", { "aria-labelledby": "dialog-title", oncancel: stays, onkeydown: stays,
      onclose: () => { box.remove(); before?.focus(); resolve(result); } });
    place(box, head, build(value => { result = value; box.close(); }));
    document.body.append(box);
    box.showModal();
    (box.querySelector("[autofocus]") ?? head).focus();
  });
}
export const sure = (title, text, key) => dialog(title, answer => [p(text), note("row",
  button("cancel", () => answer(null), { autofocus: true }), button(key, () => answer(true), { class: "danger" }))]);
// The whole page anew. Its heading has the focus, so that a screen reader begins there.
export function page(title, ...content) {
  const main = document.getElementById("main"), head = h("h1", { tabindex: "-1" }, title);
  frame.turn++;
  place(main, head, content);
  announce("");
  document.title = `${title} – ${t("title")}`;
  head.focus();
  scrollTo(0, 0);
}
export const again = () => dispatchEvent(new Event("hashchange"));
export function save(content, name) {
  const url = URL.createObjectURL(new Blob([content], { type: "application/octet-stream" }));
  const safe = plain(name).replace(/[\\/:*?"<>|]/g, "_");
  h("a", { href: url, download: safe }).click();
  setTimeout(() => URL.revokeObjectURL(url), 60000);
  announce(t("saved", { name: safe }));
  return safe;
}
// A receipt or a certificate: facts that can be printed, and saved as a text.
export function paper(title, lines, name, after = "") {
  const text = () => [title, "", ...lines.map(([key, value]) => `${t(key)}: ${plain(value)}`), "", after].join("\n");
  return [note("row noprint", button("print", () => print()), button("saveText", () => save(text(), name))),
    facts(lines.map(([key, value]) => [key, shown(value, /^[0-9a-f]{64}$/.test(value) ? "code" : "bdi")]))];
}
