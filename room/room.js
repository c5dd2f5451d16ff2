// The frame: the pages, each at an address of its own after the #, and what the office says of day and caller.
import words from "./words.js";
import { h, note, t, plain, shown, button, announce, page, place, again, frame, stay, notify } from "./dom.js";
import { office, caller, due as ask, refusalWords } from "./office.js";
import { deposits, due, NUMBER } from "./lists.js";
import { deposit } from "./record.js";
import { newDeposit } from "./deposit.js";
import { holds, names } from "./holds.js";

const PAGES = { deposits: ["pageDeposits", deposits], soon: ["pageSoon", () => deposits("90")],
  new: ["pageNew", newDeposit], due: ["pageDue", due], holds: ["pageHolds", holds], names: ["pageNames", names] };
const who = h("p", { id: "who" }), main = h("main", { id: "main" });
async function route() {
  if (frame.unanswered) { stay(); notify("stay"); return; }
  document.querySelector("dialog[open]")?.close();
  const [, name = "deposits", rest = ""] = location.hash.split("/"), mine = ++frame.turn;
  const [key, build] = name === "deposit" && NUMBER.test(rest) ? ["pageDeposit", () => deposit(rest)] :
    Object.hasOwn(PAGES, name) ? PAGES[name] : PAGES.deposits;
  announce(t("loading"));
  let content;
  try {
    await ask();                                  // the office's day and the caller's name may be others by now
    content = await build();
  } catch (e) {
    content = [h("div", { class: "refusal", role: "alert" }, refusalWords(e)),
      note("row", button("refresh", again), h("a", { href: "#/deposits" }, t("back")))];
  }
  if (mine !== frame.turn) return;                // another page, or a change, was asked for meanwhile
  frame.at = location.hash;
  page(t(key, { n: rest }), content);
  for (const a of document.querySelectorAll("nav a")) a.ariaCurrent = a.hash === "#/" + name ? "page" : null;
  place(who, h("span", {}, t("day"), " ", h("strong", { id: "day" }, office.day || "–")), " ",
    h("span", {}, t("caller"), " ", h("strong", { id: "caller" }, shown(caller()))));
}
document.documentElement.lang = words.language;
document.documentElement.dir = words.direction;
const skip = e => { e.preventDefault(); main.querySelector("h1")?.focus(); };
place(document.body, h("a", { href: "#main", class: "skip", onclick: skip }, t("skip")),
  h("header", {}, note("brand", t("title")), who, h("nav", { "aria-label": t("nav") }, h("ul", {},
    Object.entries(PAGES).map(([name, [key]]) => h("li", {}, h("a", { href: "#/" + name }, t(key))))))),
  main, h("p", { id: "said", role: "status", class: "unseen" }),
  h("p", { id: "notice", class: "warn", "aria-hidden": "true" }),
  h("datalist", { id: "names-collection" }), h("datalist", { id: "names-class" }));
for (const kind of ["error", "unhandledrejection"]) addEventListener(kind, e => {
  if (document.getElementById("failed")) return;
  main.prepend(h("p", { class: "refusal", role: "alert", id: "failed" },
    t("failed", { why: plain(String(e.reason ?? e.message)) })));
});
addEventListener("hashchange", route);
addEventListener("beforeunload", e => { if (frame.unanswered) e.preventDefault(); });
// A folder that is dropped beside its place must not replace the page.
for (const kind of ["dragover", "drop"]) addEventListener(kind, e => e.preventDefault());
if (!location.hash) history.replaceState(null, "", "#/deposits");
route();
