// Transfer forms and folders, after docs/BAGS.md. A file is {path, bytes (of the path), size, and content or blob}.
export const MOST_BYTES = 16777216, MOST_FILES = 2000, MOST_PATH = 1024;
const encoder = new TextEncoder();
export const utf8 = text => encoder.encode(text);
export function decoded(bytes) {                       // the text, or null if it isn't UTF-8
  try { return new TextDecoder("utf-8", { fatal: true, ignoreBOM: true }).decode(bytes); } catch { return null; }
}
export function compare(a, b) {                        // byte for byte: not the order of JavaScript's texts
  const n = Math.min(a.length, b.length);
  for (let i = 0; i < n; i++) if (a[i] !== b[i]) return a[i] - b[i];
  return a.length - b.length;
}
export const goodPath = path => path.isWellFormed() && utf8(path).length <= MOST_PATH && !path.includes("\0") &&
  path.split("/").every(part => part !== "" && part !== "." && part !== "..");
// The first path that comes twice, is a file and a folder at once, or is `data`.
function clash(paths) {
  const all = new Set();
  for (const path of paths) if (all.has(path)) return path; else all.add(path);
  if (all.has("data")) return "data";
  for (const path of all) for (let i = path.indexOf("/"); i > 0; i = path.indexOf("/", i + 1))
    if (all.has(path.slice(0, i))) return path.slice(0, i);
  return null;
}

// ---- Transfer forms
const header = f => `FILE ${f.bytes.length} ${f.size}\n`;
const formSize = files => 13 + files.reduce((n, f) => n + header(f).length + f.bytes.length + f.size + 1, 0);
export function form(files) {
  const out = new Uint8Array(formSize(files));
  let at = 0;
  const put = bytes => { out.set(bytes, at); at += bytes.length; };
  put(utf8("BAGSET 1\n"));
  for (const f of files) { put(utf8(header(f))); put(f.bytes); put(f.content); put([10]); }
  put(utf8("END\n"));
  return out;
}
const inRange = m => m && Number(m[1]) <= MOST_PATH && Number(m[2] ?? 0) <= MOST_BYTES;
const HEADER = /^FILE ([1-9]\d{0,3}) (0|[1-9]\d{0,7})\n/, CUT_HEADER = /^FILE ([1-9]\d{0,3})(?: (0|[1-9]\d{0,7})?)?$/;
// {files} of a form, or {fault}, the first one.
export function readForm(bytes) {
  if (bytes.length > MOST_BYTES) return { fault: "SIZE" };
  const files = [], next = n => String.fromCharCode(...bytes.subarray(at, at + n));
  let at = 0;
  if (next(9) !== "BAGSET 1\n") return { fault: "BAGSET 1\n".startsWith(next(10)) ? "S3" : "S1" };
  for (at = 9; ;) {
    const text = next(20), m = HEADER.exec(text), entry = at;
    if (text.startsWith("END\n")) break;
    if (!inRange(m)) return { fault: ["END\n", "FILE "].some(whole => whole.startsWith(text)) ||
      inRange(CUT_HEADER.exec(text)) ? "S3" : "S2 " + at };
    if (files.length === MOST_FILES) return { fault: "S6" };
    const p = Number(m[1]), c = Number(m[2]), start = at + m[0].length;
    if (start + p + c >= bytes.length) return { fault: "S3" };
    if (bytes[start + p + c] !== 10) return { fault: "S2 " + entry };
    const name = bytes.slice(start, start + p), path = decoded(name);
    if (path === null || !goodPath(path)) return { fault: "S5 " + entry };
    if (files.length && compare(files.at(-1).bytes, name) >= 0) return { fault: "S4 " + entry };
    files.push({ path, bytes: name, size: c, content: bytes.subarray(start + p, start + p + c) });
    at = start + p + c + 1;
  }
  if (at + 4 < bytes.length) return { fault: "S7" };
  return clash(files.map(f => f.path)) === null ? { files } : { fault: "S8" };
}

// ---- A plain folder becomes a bag
const spell = path => path.replace(/[%\r\n]/g, c => "%" + c.charCodeAt(0).toString(16).toUpperCase().padStart(2, "0"));
const hex = buffer => Array.from(new Uint8Array(buffer), byte => byte.toString(16).padStart(2, "0")).join("");
export const digest = async (algorithm, bytes) => hex(await crypto.subtle.digest(algorithm, bytes));
export const sha256 = bytes => digest("SHA-256", bytes);
const made = (path, text, content = utf8(text)) => ({ path, bytes: utf8(path), size: content.length, content });
const DECLARATION = "BagIt-Version: 1.0\nTag-File-Character-Encoding: UTF-8\n";
function info(payload, { day, accession, description = "" }) {
  const line = description.replace(/[\p{Cc}\p{Zl}\p{Zp}]+/gu, " ").trim();
  return [`Bag-Software-Agent: Depot records room`, `Bagging-Date: ${day}`, `External-Identifier: ${accession}`,
    ...line ? [`External-Description: ${line}`] : [],
    `Payload-Oxum: ${payload.reduce((n, f) => n + f.size, 0)}.${payload.length}`, ""].join("\n");
}
// The tag files. Without the checksums their sizes are right already.
function tagFiles(payload, about, sums = []) {
  const zero = "0".repeat(64);
  const tags = [made("bag-info.txt", info(payload, about)), made("bagit.txt", DECLARATION),
    made("manifest-sha256.txt", payload.map((f, i) => `${sums[i] ?? zero}  ${spell(f.path)}\n`).join(""))];
  const list = (found = []) =>
    made("tagmanifest-sha256.txt", tags.map((f, i) => `${found[i] ?? zero}  ${f.path}\n`).join(""));
  return { tags, list };
}
const sorted = files => files.sort((a, b) => compare(a.bytes, b.bytes));
const SYSTEM = /(^|\/)(\.DS_Store|\._[^/]*|Thumbs\.db|desktop\.ini)$/i;
// What is thrown of a folder that can't be deposited: the key of its text, and what that needs.
export const unfit = (key, path, more) => ({ unfit: key, path, ...more });
// What [{path, blob}] of a folder would be as a bag, before anything is read.
export function measured(entries) {
  const isBag = entries.some(e => e.path === "bagit.txt");
  const system = entries.filter(e => SYSTEM.test(e.path)).map(e => e.path);
  const files = sorted(entries.filter(e => isBag || !SYSTEM.test(e.path)).map(e => {
    const path = isBag ? e.path : "data/" + e.path;
    return { path, bytes: utf8(path), size: e.blob.size, blob: e.blob };
  }));
  const longest = { day: "2000-01-01", accession: "x".repeat(64), description: "\u4e00".repeat(1000) };
  const tags = isBag ? null : tagFiles(files, longest), all = isBag ? files : [...files, ...tags.tags, tags.list()];
  const bad = files.find(f => !goodPath(f.path)), two = clash(all.map(f => f.path)), size = formSize(all);
  if (!files.length) throw unfit("limitEmpty");
  if (bad) throw unfit("limitPath", bad.path);
  if (two) throw unfit("limitClash", two);
  if (all.length > MOST_FILES) throw unfit("limitCount", "", { n: all.length });
  if (size > MOST_BYTES) throw unfit("limitSize", "", { size });
  return { isBag, files, system, size, count: all.length };
}
// A file that was changed since it was chosen can't be read, or has other bytes.
export async function read(f) {
  const content = await f.blob.arrayBuffer().then(b => new Uint8Array(b), () => null);
  if (content?.length !== f.size || (f.content && compare(f.content, content) !== 0)) throw unfit("changed", f.path);
  return content;
}
export async function bagOf(files, sums, about) {
  const { tags, list } = tagFiles(files, about, sums);
  return form(sorted([...files, ...tags, list(await Promise.all(tags.map(f => sha256(f.content))))]));
}

// ---- What was chosen or dropped, as [{path, blob}] with paths from the folder on
// Of a chosen folder Chromium makes a / of each \ in a name, and leaves out links, some real files where a link leads
// to their folder, and names that aren't Unicode. Of a dropped one it gives these names, but empty.
export const chosen = list => Array.from(list, f => {
  if (!f.webkitRelativePath.endsWith("/" + f.name)) throw unfit("renamed", f.name);
  return { path: f.webkitRelativePath.split("/").slice(1).join("/"), blob: f };
});
export async function dropped(folder) {
  const found = [], rest = [folder];
  while (rest.length) {
    const reader = rest.pop().createReader();
    for (;;) {                                         // a reader gives at most 100 entries at a time
      const some = await new Promise((good, bad) => reader.readEntries(good, bad));
      if (!some.length) break;
      for (const e of some) {
        if (!e.name) throw unfit("unnamed", e.fullPath);
        if (e.isDirectory) rest.push(e);
        else found.push({ path: e.fullPath.slice(folder.fullPath.length + 1),
          blob: await new Promise((good, bad) => e.file(good, () => bad(unfit("changed", e.fullPath)))) });
      }
      if (found.length > 20000) return found;          // far more than a bag takes: don't list a whole disk
    }
  }
  return found;
}
