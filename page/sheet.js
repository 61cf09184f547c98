
// The XML of a workbook's parts, and what its cells show.
const COUNTED_FROM = 25569; // Days from the zeroth of a workbook to 1970.
const LAST_DAY = 2_958_465; // The end of the year 9999.
const SECONDS = 86_400;
// The formats of dates and times that have no text in a workbook.
const BUILT_IN = { 14: "ymd", 15: "ymd", 16: "md", 17: "my", 18: "hm", 19: "hms", 20: "hm", 21: "hms", 22: "ymdhm", 45: "[m]s", 46: "[h]ms", 47: "[m]s" };
for (const id of [27, 28, 29, 30, 31, 36, 50, 51, 52, 53, 54, 57, 58]) BUILT_IN[id] = "ymd";
const NAMED = { amp: "&", lt: "<", gt: ">", quot: '"', apos: "'" };
const patterns = new Map();
const ofAttributes = new Map();

// A pattern of XML, in which a name may have a prefix.
function pattern(source) {
  if (!patterns.has(source)) patterns.set(source, new RegExp(source.replaceAll("~", "(?:[\\w-]+:)?"), "g"));
  return patterns.get(source);
}

// The elements of a name in a text: the attributes of each, and what is in it.
function elementsOf(text, name) {
  return text.matchAll(pattern(`<~${name}(?=[\\s/>])([^>]*?)(?:/>|>([^]*?)</~${name}\\s*>)`));
}

function attributeOf(attributes, name) {
  if (!ofAttributes.has(name)) ofAttributes.set(name, new RegExp(`\\s${name}\\s*=\\s*(?:"([^"]*)"|'([^']*)')`));
  const found = attributes.match(ofAttributes.get(name));
  return found ? plain(found[1] ?? found[2]) : "";
}

// A text without the marks of XML, and without those that Excel has for letters that XML has not.
function plain(text) {
  if (text.includes("\r")) text = text.replaceAll(/\r\n?/g, "\n");
  return text.includes("&") ? text.replaceAll(/&(?:#x([\da-f]+)|#(\d+)|(\w+));/gi, (all, hex, decimal, name) =>
    (name ? NAMED[name] ?? all : String.fromCodePoint(hex ? parseInt(hex, 16) : Number(decimal)))) : text;
}

function textIn(xml) {
  const spoken = xml.replaceAll(pattern("<~rPh[\\s>][^]*?</~rPh\\s*>"), "");
  const text = Array.from(elementsOf(spoken, "t"), ([, , inner = ""]) => plain(inner)).join("");
  return text.replaceAll(/_x([\da-f]{4})_/gi, (_, hex) => String.fromCharCode(parseInt(hex, 16)));
}

// The text of a part in pieces that end behind an element of a name, and last what is left.
async function* piecesOf(part, name) {
  const ends = pattern(`</~${name}\\s*>`);
  let [held, tail] = [[], ""];
  for await (const text of textsOf(part)) {
    held.push(text);
    const near = tail + text;
    const last = [...near.matchAll(ends)].at(-1);
    tail = near.slice(last ? last.index + last[0].length : 0);
    if (last) {
      const whole = held.join("");
      yield whole.slice(0, whole.length - tail.length);
      held = [tail];
    }
    tail = tail.slice(-100);
  }
  yield held.join("");
}

async function textOfPart(part) {
  const texts = [];
  for await (const text of textsOf(part)) texts.push(text);
  return texts.join("");
}

// What a format makes of a number: a date, a time, or so many digits.
function formatOf(code) {
  const bare = code.replaceAll(/"[^"]*"|\\.|[_*]./g, "").split(";")[0];
  const isElapsed = /\[[hms]+\]/i.test(bare);
  const letters = bare.replaceAll(/\[[hms]+\]/gi, "h").replaceAll(/\[[^\]]*\]|general|am\/pm|a\/p/gi, "");
  const hasTime = /[hs]/i.test(letters);
  return { isElapsed, hasTime, hasDate: /[yd]/i.test(letters) || (/m/i.test(letters) && !hasTime), digits: /^0+$/.test(letters) ? letters.length : 0 };
}

// The formats of the styles that cells name.
function formatsOf(styles) {
  const codes = new Map(Object.entries(BUILT_IN));
  for (const [, attributes] of elementsOf(styles, "numFmt")) codes.set(attributeOf(attributes, "numFmtId"), attributeOf(attributes, "formatCode"));
  const [[, , cells = ""] = []] = elementsOf(styles, "cellXfs");
  return Array.from(elementsOf(cells, "xf"), ([, attributes]) => formatOf(codes.get(attributeOf(attributes, "numFmtId")) ?? ""));
}

function twoDigits(number) {
  return String(number).padStart(2, "0");
}

// A day and a time, both counted in days, as ISO 8601 writes them.
function dateText(days, { hasDate, hasTime, isElapsed }, isFrom1904) {
  const seconds = Math.round(days * SECONDS);
  const day = Math.floor(seconds / SECONDS) + (isFrom1904 ? 1462 : 0);
  // Workbooks count a 29th of February 1900, which there was not.
  const real = day < 60 ? day + 1 : day;
  const date = day === 60 ? "1900-02-29" : new Date((real - COUNTED_FROM) * SECONDS * 1000).toISOString().slice(0, 10);
  const rest = isElapsed ? seconds : seconds % SECONDS;
  const time = [rest / 3600, (rest / 60) % 60, rest % 60].map((part) => twoDigits(Math.floor(part))).join(":");
  return [...(hasDate ? [date] : []), ...(hasTime ? [time] : [])].join(" ");
}

function numberText(text, format, isFrom1904) {
  const value = Number(text);
  if (!text || !Number.isFinite(value)) return text;
  const isDate = format && (format.hasDate || format.hasTime);
  if (isDate && value >= 0 && value <= LAST_DAY) return dateText(value, format, isFrom1904);
  const shown = /^-?\d+$/.test(text) ? text : String(Number(value.toPrecision(15)));
  return format?.digits && /^\d+$/.test(shown) ? shown.padStart(format.digits, "0") : shown;
}
