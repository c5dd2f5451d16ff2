// A ZIP of stored files, after APPNOTE 4.3: below 4 GiB and 65,535 entries, names in UTF-8.
const TABLE = Uint32Array.from({ length: 256 }, (_, n) => {
  for (let k = 0; k < 8; k++) n = n & 1 ? 0xedb88320 ^ (n >>> 1) : n >>> 1;
  return n;
});
function crc32(bytes) {
  let c = ~0;
  for (let i = 0; i < bytes.length; i++) c = TABLE[(c ^ bytes[i]) & 255] ^ (c >>> 8);
  return ~c >>> 0;
}
// What Windows takes for a folder, a drive or a stream is spelled with %; and then each % too: names stay different.
export const isRisky = f => /[\\:]/.test(f.path);
const spelled = f => f.path.replace(/[%\\:]/g, c => "%" + c.charCodeAt(0).toString(16).toUpperCase());
// Numbers, each of 2 or 4 bytes, the least byte first.
const packed = (...pairs) => Uint8Array.from(pairs.flatMap(([width, n]) =>
  Array.from({ length: width }, (_, i) => n >>> 8 * i & 255)));
// The files {path, content}, all put into `folder`, with the date of the day, such as "2024-03-01".
export function zip(folder, files, day) {
  const [y, m, d] = day.split("-").map(Number), date = Math.max(0, Math.min(y, 2107) - 1980) << 9 | m << 5 | d;
  const parts = [], directory = [], nameOf = files.some(isRisky) ? spelled : f => f.path;
  let offset = 0, length = 0;
  for (const f of files) {
    const { content } = f, name = new TextEncoder().encode(folder + "/" + nameOf(f)), n = content.length;
    // version 2.0, names in UTF-8, stored, midnight
    const common = [[2, 20], [2, 0x800], [2, 0], [2, 0], [2, date], [4, crc32(content)], [4, n], [4, n],
      [2, name.length], [2, 0]];
    directory.push(packed([4, 0x02014b50], [2, 20], ...common, [2, 0], [2, 0], [2, 0], [4, 0], [4, offset]), name);
    parts.push(packed([4, 0x04034b50], ...common), name, content);
    length += 46 + name.length;
    offset += 30 + name.length + n;
  }
  return new Blob([...parts, ...directory, packed([4, 0x06054b50], [2, 0], [2, 0], [2, files.length],
    [2, files.length], [4, length], [4, offset], [2, 0])]);
}
