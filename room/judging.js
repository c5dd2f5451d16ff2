// Whether a bag is valid, by the rules of docs/BAGS.md. The office judges it again, and its answer alone counts.
import { utf8, decoded, compare, goodPath, digest } from "./bags.js";

const ALGORITHMS = { sha256: ["SHA-256", 64], sha512: ["SHA-512", 128] };
const isBlank = line => /^[ \t]*$/.test(line);
const lines = text => text.split(/\r\n|\r|\n/).filter((line, i, all) => line || i < all.length - 1);
const manifestName = path => /^(tag)?manifest-([^/]+)\.txt$/.exec(path);        // its kind and its algorithm
// A name as a fault prints it.
const printed = path => Array.from(utf8(path), byte => byte < 33 || byte > 126 || byte === 37 ?
  "%" + byte.toString(16).toUpperCase().padStart(2, "0") : String.fromCharCode(byte)).join("");
const flaw = text => text === null ? 1 : text.startsWith("\ufeff") ? 2 : 0;    // the first rules of any tag file
function declaration(content) {
  const text = decoded(content);
  if (flaw(text)) return { fault: "V" + flaw(text) };
  const both = lines(text);
  if (both.length !== 2) return { fault: "V3" };
  const version = /^BagIt-Version:[ \t]*(\d+\.\d+)[ \t]*$/.exec(both[0])?.[1];
  if (!version) return { fault: "V4" };
  if (version !== "1.0" && version !== "0.97") return { fault: "V5" };
  const encoding = /^Tag-File-Character-Encoding:[ \t]*(.*?)[ \t]*$/su.exec(both[1])?.[1];
  if (!encoding) return { fault: "V6" };
  return /^utf-8$/i.test(encoding) ? { version } : { fault: "V7" };
}
// {sums}, from a path to its checksum, or {fault}.
function readManifest(content, version, digits) {
  const text = decoded(content), sums = new Map();
  if (flaw(text)) return { fault: "L" + flaw(text) };
  const coded = version === "1.0" ? /%(0[AaDd]|25)/g : /%(0[AaDd])/g;
  for (const [i, line] of lines(text).entries()) {
    if (isBlank(line)) continue;
    const [, sum, spelled] = /^([^ \t]*)[ \t]*([^]*)$/.exec(line);
    if (sum.length !== digits || !/^[0-9A-Fa-f]*$/.test(sum)) return { fault: `L3 ${i + 1}` };
    if (spelled === "") return { fault: `L4 ${i + 1}` };
    const path = spelled.replace(coded, (_, x) => String.fromCharCode(parseInt(x, 16)));
    if (spelled[0] === "*" || !goodPath(path)) return { fault: `L5 ${i + 1}` };
    if (sums.has(path)) return { fault: `L6 ${i + 1}` };
    sums.set(path, sum.toLowerCase());
  }
  return { sums };
}
// {oxums}, the values of Payload-Oxum in bag-info.txt, or {fault}.
function readInfo(content) {
  const text = decoded(content), pairs = [];
  if (flaw(text)) return { fault: "I" + flaw(text) };
  for (const [i, line] of lines(text).entries()) {
    if (isBlank(line)) continue;
    const colon = line.indexOf(":"), rest = line.slice(colon + 1).replace(/^[ \t]+/, "");
    if (/^[ \t]/.test(line)) {
      if (!pairs.length) return { fault: `I5 ${i + 1}` };
      pairs.at(-1).value += "\n" + line.replace(/^[ \t]+/, "");
    } else if (colon < 1) return { fault: `${colon < 0 ? "I3" : "I4"} ${i + 1}` };
    else pairs.push({ label: line.slice(0, colon).replace(/[ \t]+$/, ""), value: rest });
  }
  return { oxums: pairs.filter(pair => pair.label.toLowerCase() === "payload-oxum").map(pair => pair.value) };
}
// The first fault as `depot check` prints it, or null. `progress` is told how many files were hashed.
export async function bagFault(files, progress = () => {}) {
  const all = new Map(files.map(f => [f.path, f])), isPayload = path => path.startsWith("data/");
  const payload = files.filter(f => isPayload(f.path));
  if (!all.has("bagit.txt")) return "B1";
  const { version, fault } = declaration(all.get("bagit.txt").content);
  if (fault) return "B2 " + fault;
  if (all.has("fetch.txt")) return "B3";
  const manifests = [];                                // the files, and so these, ascend by their paths
  for (const { path, content } of files) {
    const m = manifestName(path);
    if (m && !Object.hasOwn(ALGORITHMS, m[2])) return "B4 " + printed(path);
    if (m) manifests.push({ name: path, content, isTag: Boolean(m[1]), algorithm: ALGORITHMS[m[2]] });
  }
  if (manifests.every(m => m.isTag)) return "B5";
  for (const m of manifests) {
    const found = readManifest(m.content, version, m.algorithm[1]);
    if (found.fault) return `B6 ${m.name} ${found.fault}`;
    m.sums = found.sums;
  }
  const tags = manifests.filter(m => m.isTag), payloads = manifests.filter(m => !m.isTag);
  const listed = m => [...m.sums.keys()].sort((a, b) => compare(utf8(a), utf8(b)));
  const broken = (code, some, paths, isWrong) => {     // the first manifest, and the first path, that breaks a rule
    const all = some.map(m => [m.name, paths(m).find(path => isWrong(path, m))]);
    const [name, path] = all.find(each => each[1] !== undefined) ?? [];
    return name ? `${code} ${name} ${printed(path)}` : null;
  };
  const names = payloads.map(m => m.name), unlisted = (path, m) => !m.sums.has(path);
  const first = broken("B7", payloads, listed, path => !isPayload(path)) ??
    broken("B8", tags, listed, path => manifestName(path)?.[1]) ?? broken("B9", tags, listed, isPayload) ??
    broken("B10", tags, () => names, unlisted) ?? broken("B11", manifests, listed, path => !all.has(path)) ??
    broken("B12", payloads, () => payload.map(f => f.path), unlisted);
  if (first) return first;
  if (all.has("bag-info.txt")) {
    const found = readInfo(all.get("bag-info.txt").content);
    if (found.fault) return "B13 " + found.fault;
    const oxums = found.oxums.map(value => /^(\d{1,20})\.(\d{1,20})[ \t]*$/.exec(value));
    if (oxums.includes(null)) return "B14";
    if (oxums.length > 1) return "B15";
    const right = [payload.reduce((n, f) => n + f.content.length, 0), payload.length];
    if (oxums.length && right.some((n, i) => BigInt(oxums[0][i + 1]) !== BigInt(n))) return "B16";
  }
  const total = manifests.reduce((n, m) => n + m.sums.size, 0);
  let done = 0;
  for (const m of manifests) for (const path of listed(m)) {
    if (await digest(m.algorithm[0], all.get(path).content) !== m.sums.get(path))
      return `B17 ${m.name} ${printed(path)}`;
    progress(++done, total);
  }
  return null;
}
// Each file's SHA-256 as the manifests of a bag that the office took have it.
export function digests(files) {
  const all = new Map(files.map(f => [f.path, f.content])), version = declaration(all.get("bagit.txt") ?? []).version;
  const sums = name => all.has(name) ? readManifest(all.get(name), version, 64).sums ?? [] : [];
  return new Map([...sums("tagmanifest-sha256.txt"), ...sums("manifest-sha256.txt")]);
}
