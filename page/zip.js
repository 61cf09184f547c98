
// The parts of a zip file, by the directory at its end. They are unpacked piece by piece, and checked by their sums.
const [END_OF_ZIP, ENTRY_OF_ZIP, PART_OF_ZIP] = [0x06054b50, 0x02014b50, 0x04034b50];
const FARTHEST_END = 22 + 0xffff; // From the end of the file, behind which a comment may stand.
const MOST_UNPACKED = 2 ** 29; // Bytes of one part, and of what is written of a sheet.
const AS_CSV = "open it in Excel or LibreOffice, save the sheet as CSV UTF-8, and open that file here.";
const SUMS = Uint32Array.from({ length: 256 }, (_, byte) => {
  let sum = byte;
  for (let bit = 0; bit < 8; bit++) sum = sum & 1 ? (sum >>> 1) ^ 0xedb88320 : sum >>> 1;
  return sum;
});

// Why a workbook isn't read, and what helps.
class Refused extends Error {}

function damaged() {
  return new Refused(`The file is damaged or was cut off. If it is a workbook: ${AS_CSV}`);
}

function tooLong() {
  return new Refused(`A sheet of this workbook has more than ${MOST_UNPACKED >> 20} MB when it is unpacked. Instead, ${AS_CSV}`);
}

async function viewOf(blob, begin, end) {
  return new DataView(await blob.slice(begin, end).arrayBuffer());
}

// What the directory says of each part, by its name.
async function partsOf(blob) {
  const end = await viewOf(blob, Math.max(blob.size - FARTHEST_END, 0), blob.size);
  let last = end.byteLength - 22;
  while (last >= 0 && end.getUint32(last, true) !== END_OF_ZIP) last--;
  if (last < 0) throw damaged();
  const [count, size, begin] = [end.getUint16(last + 10, true), end.getUint32(last + 12, true), end.getUint32(last + 16, true)];
  if (count === 0xffff || size === 0xffffffff || begin === 0xffffffff) throw new Refused(`This workbook is packed as zip64, which this page doesn't read. Instead, ${AS_CSV}`);
  const directory = await viewOf(blob, begin, begin + size);
  const parts = new Map();
  for (let at = 0; parts.size < count; ) {
    if (at + 46 > directory.byteLength || directory.getUint32(at, true) !== ENTRY_OF_ZIP) throw damaged();
    const [flags, method] = [8, 10].map((place) => directory.getUint16(at + place, true));
    const [sum, packed, unpacked] = [16, 20, 24].map((place) => directory.getUint32(at + place, true));
    const [name, extra, comment] = [28, 30, 32].map((place) => directory.getUint16(at + place, true));
    const text = new TextDecoder().decode(directory.buffer.slice(at + 46, at + 46 + name));
    if (parts.has(text)) throw damaged();
    parts.set(text, { blob, flags, method, sum, packed, unpacked, begin: directory.getUint32(at + 42, true) });
    at += 46 + name + extra + comment;
  }
  return parts;
}

// The bytes of a part as they are stored.
async function storedOf({ blob, flags, method, packed, unpacked, begin }) {
  if (flags & 1) throw new Refused(`This workbook is encrypted. Open it with its password, and save it without one.`);
  if (unpacked > MOST_UNPACKED) throw tooLong();
  if (method !== 0 && method !== 8) throw damaged();
  const head = await viewOf(blob, begin, begin + 30);
  if (head.byteLength < 30 || head.getUint32(0, true) !== PART_OF_ZIP) throw damaged();
  const from = begin + 30 + head.getUint16(26, true) + head.getUint16(28, true);
  const stored = blob.slice(from, from + packed).stream();
  return method ? stored.pipeThrough(new DecompressionStream("deflate-raw")) : stored;
}

// The bytes of a part, in pieces.
async function* bytesOfPart(part) {
  const reader = (await storedOf(part)).getReader();
  let [length, sum] = [0, 0xffffffff];
  for (;;) {
    const { done, value } = await reader.read().catch(() => {
      throw damaged();
    });
    if (done) break;
    length += value.length;
    if (length > MOST_UNPACKED) throw tooLong();
    for (let at = 0; at < value.length; at++) sum = (sum >>> 8) ^ SUMS[(sum ^ value[at]) & 0xff];
    yield value;
  }
  if (length !== part.unpacked || (~sum >>> 0) !== part.sum) throw damaged();
}

async function* textsOf(part) {
  let decoder = null;
  for await (const bytes of bytesOfPart(part)) {
    decoder ??= new TextDecoder(bytes[0] === 0xff ? "utf-16le" : bytes[0] === 0xfe ? "utf-16be" : "utf-8");
    yield decoder.decode(bytes, { stream: true });
  }
}
