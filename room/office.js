// The routes of docs/HTTP.md, and what a refusal means in words. The office decides; this only asks.
import words from "./words.js";
import { h, p, note, t, filled, shown, alarm, asking, noticed, notify, unanswered } from "./dom.js";

export const office = { day: "", caller: "" };
export const caller = () => office.caller || t("unknownCaller");
// The office is one folder above the page, wherever that is. (Written out: the page's own address may hold a password,
// and fetch takes no address that does.)
const BASE = new URL("..", location.origin + location.pathname).href;
export class Refusal extends Error {
  constructor(status, body) { super(body.error); this.status = status; this.body = body; }
  // Whether it may have been done all the same. (The proxy says Closed before it passes anything on.)
  get isUncertain() { return this.status === 0 || (this.status >= 500 && this.body.error !== "Closed"); }
}
const pause = seconds => new Promise(done => setTimeout(done, 1000 * seconds));
// fetch tells nothing of an upload's progress.
const upload = (method, address, body, progress) => new Promise((good, bad) => {
  const request = new XMLHttpRequest();
  request.open(method, address);
  request.upload.onprogress = e => progress(e.loaded, e.total);
  request.onload = () => good(new Response(request.responseText, { status: request.status,
    headers: ["Depot-User", "Retry-After"].map(name => [name, request.getResponseHeader(name) ?? ""]) }));
  request.onerror = request.onabort = bad;
  request.send(body);
});
const ask = (method, address, body) =>
  fetch(address, { method, body, cache: "no-store", redirect: "error", credentials: "same-origin" });
// One request after the other: the proxy takes one at a time of each user. What it says 429 to, it never passed on.
const MOST_TRIES = 20, MOST_LOOKS = 60;
let last = Promise.resolve();
function send(method, path, body, read = answer => answer.json(), progress = null) {
  const mine = last.then(() => noticed(async () => {
    for (let tries = 1; ; tries++) {
      try {
        const answer = await (progress ? upload : ask)(method, BASE + path, body, progress);
        office.caller = answer.headers.get("Depot-User") || office.caller;
        if (answer.ok) return await read(answer);
        const retry = Math.min(Number(answer.headers.get("Retry-After")) || 2, 30);
        if (answer.status !== 429 || tries === MOST_TRIES)
          throw new Refusal(answer.status, { ...await answer.json().catch(() => ({ error: "Proxy" })), retry });
        notify("waiting");
        await pause(retry);
      } catch (e) { throw e instanceof Refusal ? e : new Refusal(0, { error: "Offline" }); }
    }
  }));
  last = mine.catch(() => {});
  return mine;
}
const bytes = async answer => new Uint8Array(await answer.arrayBuffer());
const json = (method, path, body) => send(method, path, body && JSON.stringify(body));
const query = values => new URLSearchParams(Object.entries(values).filter(([, value]) => value)).toString();
export const list = async where => (await json("GET", ("deposits?" + query(where)).replace(/\?$/, ""))).deposits;
export const record = n => json("GET", `deposits/${n}`);
export const holds = async n => (await json("GET", `deposits/${n}/holds`)).holds;
export const audit = n => json("GET", `deposits/${n}/audit`);
const formOf = n => send("GET", `deposits/${n}/bag`, null, bytes);
// If the store fails of a bag alone, and again after another answer, then what is stored of it was altered.
export const bag = n => formOf(n).catch(async e => {
  if (e.body.error !== "Store" || (await record(n).catch(why => why)).isUncertain) throw e;
  return formOf(n).catch(why => { if (why.body.error === "Store") why.body.what = "altered"; throw why; });
});
const coded = path => path.split("/").map(encodeURIComponent).join("/");
export const file = (n, path) => send("GET", `deposits/${n}/files/${coded(path)}`, null, bytes);
export const hold = (on, name, matter) =>
  json("POST", "holds", { [on]: on === "deposit" ? Number(name) : name, matter });
export const release = k => json("DELETE", `holds/${k}`);
export const dispose = n => json("DELETE", `deposits/${n}`);
export const defineClass = (name, years) => json("PUT", `classes/${name}`, { years });
export const defineCollection = name => json("PUT", `collections/${name}`);
export const due = async () => { const answer = await json("GET", "due"); office.day = answer.day; return answer; };
// The day, if it is still the office's.
export const stillOn = day => due().then(answer => answer.day === day && day, () => false);
export const deposit = async (about, form, progress) =>
  (await send("POST", "deposits?" + query(about), new Blob([form]), answer => answer.json(), progress)).deposit;
// Would the office take a deposit? An empty body is refused as S3 after all else is right. Only E10, Full, comes later.
export async function wouldTake(about) {
  try { await json("POST", "deposits?" + query(about)); } catch (e) { if (e.body?.fault !== "S3") throw e; }
}
// After an answer was lost: asks until the office answers again, as after a restart, and then says what was done.
export async function look(question) {
  for (let tries = 1; ; tries++) {
    try { return await question(); } catch (e) {
      if (!(e instanceof Refusal) || (e.status !== 0 && e.status < 500) || tries === MOST_LOOKS) throw e;
      await pause(e.body.retry ?? 2);
    }
  }
}
// The deposit's number, if the office has exactly this form under this accession, and nothing else of it differs; null
// if the accession is free.
export async function depositOf(about, form) {
  try { await wouldTake(about); return null; } catch (e) {
    if (e.body?.error !== "Taken") throw e;
    try {
      const n = e.body.deposit, kept = await bag(n), r = await record(n);
      if (kept.length === form.length && kept.every((byte, i) => byte === form[i]) &&
        Object.entries(about).every(([key, value]) => r[key] === value)) return n;
    } catch (why) {
      if (why.status === 403) e.body.what = "unseen"; else if (why.body?.what === "altered") e.body.what = "altered";
      else if (why.isUncertain) throw why;
    }
    throw e;
  }
}
// The live hold on this with this matter; null if no deposit that may be seen can tell.
export async function holdOf(on, name, matter) {
  const n = on === "deposit" ? name : (await list({ [on]: name }))[0]?.deposit;
  return n === undefined ? null : (await holds(n)).find(x => x.on === on && x.matter === matter);
}
// The day on which a deposit was destroyed, or null if it is there.
export async function goneOn(n) {
  try { await record(n); return null; } catch (e) { if (e.body?.error === "Gone") return e.body.day; throw e; }
}
// A fault such as "B17 manifest-sha256.txt data/a" as [what, what to do]. Its names have %XX for some bytes.
export function faultWords(fault) {
  const decode = text => { try { return decodeURIComponent(text); } catch { return text; } };
  let parts = fault.split(" "), name = "";
  if (parts[0] === "B6") { name = parts[1]; parts = parts.slice(2); }
  if (parts[0] === "B2" || parts[0] === "B13") parts = parts.slice(1);
  const [code, a = "", b = ""] = parts, key = Object.hasOwn(words.fault, code) ? code : "other";
  const values = { name: shown(decode(name || a)), path: shown(decode(b)), line: shown(a), offset: shown(a) };
  return (words.fault[key] ?? [code, ""]).map(text => filled(text, values));
}
const said = (what, todo, code) => [p(what), p(h("strong", {}, t("todo")), " ", todo),
  note("help", t("code"), " ", shown(code, "code"))];
export function faultSaid(fault, advice = cure => cure) {
  const [what, cure] = faultWords(fault);
  return said(what, advice(cure), fault);
}
export function refusalWords(e) {
  if (!(e instanceof Refusal)) throw e;
  const { error, ...rest } = e.body;
  const key = [`${error} ${rest.what ?? rest.rule ?? rest.due ?? (rest.matter && "matter")}`, error, "Other"]
    .find(each => Object.hasOwn(words.refusal, each));
  const values = { today: office.day };
  for (const [name, value] of Object.entries(rest)) values[name] = shown(value);
  if (rest.deposit) values.deposit = h("a", { href: "#/deposit/" + Number(rest.deposit) }, shown(rest.deposit));
  const [what, todo] = words.refusal[key] ?? [error, ""], [fault, cure] = rest.fault ? faultWords(rest.fault) : [];
  return said([h("strong", {}, t("refused")), ": ", filled(what, values), fault && [" ", fault]],
    [filled(todo, values), cure && [" ", cure]], [e.status, error, rest.fault].filter(Boolean).join(" "));
}
export const refuse = (where, e) => alarm(where, refusalWords(e));
// Does what may be refused, and says in its place that the office is asked, and a refusal. Whether it was done.
export async function tried(where, action) {
  const wait = asking(where);
  try { await action(); return true; } catch (e) { refuse(where, e); return false; } finally { wait.remove(); }
}
export const change = (where, action) => unanswered(() => tried(where, action));
