
// A workbook of Excel: the cells of one of its sheets, written as CSV. It is in the worker too.
const LETTER_A = 64;
const SHEET_ROWS = 5000; // Rows that are written at once.
const OLE = 0xd0cf11e0;
const ENCRYPTED_PART = "EncryptedPackage".replaceAll(/(?<=.)/g, "\0"); // As a directory in UTF-16 has it.

// The parts that another is said to belong with, by the ends of the names of their kinds.
async function relatedTo(parts, name) {
  const at = name.lastIndexOf("/") + 1;
  const part = parts.get(`${name.slice(0, at)}_rels/${name.slice(at)}.rels`);
  return Array.from(part ? elementsOf(await textOfPart(part), "Relationship") : [], ([, attributes]) => {
    const steps = new URL(attributeOf(attributes, "Target"), `file:///${name}`).pathname;
    return { id: attributeOf(attributes, "Id"), kind: attributeOf(attributes, "Type").split("/").at(-1), name: decodeURIComponent(steps.slice(1)) };
  });
}

// What all sheets share, and which sheets there are. Null if the file is no workbook.
async function bookOf(blob) {
  const parts = await partsOf(blob);
  const main = (await relatedTo(parts, "")).find(({ kind }) => kind === "officeDocument")?.name ?? "xl/workbook.xml";
  if (main.endsWith(".bin")) throw new Refused(`This workbook is a binary one (.xlsb), which this page doesn't read. Save it as .xlsx, and open that.`);
  if (parts.has("mimetype") && parts.has("content.xml")) throw new Refused(`This is an OpenDocument file, which this page doesn't read. Save the sheet as .xlsx or as CSV UTF-8, and open that.`);
  if (!parts.has(main) || !main.endsWith("workbook.xml")) return null;
  const text = await textOfPart(parts.get(main));
  const related = await relatedTo(parts, main);
  const partOf = (kind) => parts.get(related.find((one) => one.kind === kind)?.name);
  const strings = [];
  if (partOf("sharedStrings")) for await (const piece of piecesOf(partOf("sharedStrings"), "si")) {
    for (const [, , inner = ""] of elementsOf(piece, "si")) strings.push(textIn(inner));
  }
  const formats = partOf("styles") ? formatsOf(await textOfPart(partOf("styles"))) : [];
  const [[, properties = ""] = []] = elementsOf(text, "workbookPr");
  const sheets = Array.from(elementsOf(text, "sheet"), ([, attributes]) => {
    const own = related.find(({ id, kind }) => kind === "worksheet" && id === attributeOf(attributes, "[\\w-]+:id"));
    return { name: attributeOf(attributes, "name"), isHidden: /hidden/i.test(attributeOf(attributes, "state")), part: parts.get(own?.name) };
  }).filter(({ part }) => part);
  const seen = sheets.filter(({ isHidden }) => !isHidden);
  return { strings, formats, isFrom1904: /^(1|true)$/.test(attributeOf(properties, "date1904")), sheets: seen.length ? seen : sheets };
}

// What a cell shows: of a formula, the value that it had when the workbook was saved.
function cellText(attributes, inner, { strings, formats, isFrom1904 }) {
  const kind = attributeOf(attributes, "t");
  if (kind === "inlineStr") return textIn(inner);
  const [[, , value = ""] = []] = elementsOf(inner, "v");
  if (kind === "s") return strings[Number(value)] ?? "";
  if (kind === "b") return Number(value) ? "TRUE" : "FALSE";
  if (kind === "str") return textIn(`<t>${value}</t>`);
  return kind === "e" || kind === "d" ? plain(value) : numberText(value.trim(), formats[Number(attributeOf(attributes, "s"))], isFrom1904);
}

// The column and the row of a place, as B7 is.
function placeOf(name) {
  const [, letters = "", row = ""] = name.match(/^\$?([A-Z]*)\$?(\d*)/i) ?? [];
  return [[...letters.toUpperCase()].reduce((sum, letter) => 26 * sum + letter.charCodeAt(0) - LETTER_A, 0), Number(row)];
}

// The cells of a sheet that are not empty, one row behind the other, and its merged cells.
async function cellsOf(book, part) {
  const cells = { columns: [], texts: [], rows: [], begins: [], merged: [] };
  let row = 0;
  for await (const piece of piecesOf(part, "row")) {
    for (const [, attributes, inner = ""] of elementsOf(piece, "row")) {
      row = Number(attributeOf(attributes, "r")) || row + 1;
      const begin = cells.texts.length;
      let column = 0;
      for (const [, ofCell, inCell = ""] of elementsOf(inner, "c")) {
        column = placeOf(attributeOf(ofCell, "r"))[0] || column + 1;
        const text = cellText(ofCell, inCell, book);
        if (text === "") continue;
        cells.columns.push(column);
        cells.texts.push(text);
      }
      if (cells.texts.length === begin) continue;
      cells.rows.push(row);
      cells.begins.push(begin);
    }
    for (const [, attributes] of elementsOf(piece, "mergeCell")) {
      const [[column, from], [, to]] = attributeOf(attributes, "ref").split(":").map(placeOf);
      if (to > from) cells.merged.push({ column, from, to });
    }
  }
  cells.begins.push(cells.texts.length);
  cells.merged.sort((one, other) => one.from - other.from);
  return cells;
}

// The rows of a sheet as records, from its first column in use to its last. What several rows of one column share is
// in each of them; rows without a cell are left out.
function* recordsOf({ columns, texts, rows, begins, merged }) {
  let [first, last] = [Infinity, 0];
  for (const column of columns) [first, last] = [Math.min(first, column), Math.max(last, column)];
  const shared = new Map();
  let next = 0;
  for (const [place, row] of rows.entries()) {
    const record = new Array(last - first + 1).fill("");
    for (let at = begins[place]; at < begins[place + 1]; at++) record[columns[at] - first] = texts[at];
    for (; next < merged.length && merged[next].from <= row; next++) {
      const { column, from, to } = merged[next];
      if (from === row && record[column - first]) shared.set(column, { to, text: record[column - first] });
    }
    for (const [column, { to, text }] of shared) {
      if (to < row) shared.delete(column);
      else record[column - first] ||= text;
    }
    yield record;
  }
}

function csvOfCells(cells) {
  const written = (text) => (/[",\r\n]/.test(text) ? `"${text.replaceAll('"', '""')}"` : text);
  const parts = [];
  let [lines, length] = [[], 0];
  const add = () => {
    const part = utf8.encode(lines.join(""));
    length += part.length;
    if (length > MOST_UNPACKED) throw tooLong();
    parts.push(part);
    lines = [];
  };
  for (const record of recordsOf(cells)) {
    if (lines.push(`${record.map(written).join(",")}\r\n`) === SHEET_ROWS) add();
  }
  add();
  return new Blob(parts);
}

// The sheet of a name, or else the first that has cells.
async function sheetOf(blob, name) {
  const book = await bookOf(blob);
  if (!book) return { status: 0, csv: null };
  const { sheets } = book;
  const chosen = sheets.filter((sheet) => sheet.name === name);
  for (const sheet of chosen.length ? chosen : sheets) {
    const cells = await cellsOf(book, sheet.part);
    if (!cells.rows.length && !chosen.length) continue;
    return { status: 0, csv: csvOfCells(cells), sheets: sheets.map((one) => one.name), sheet: sheet.name };
  }
  throw new Refused("No sheet of this workbook has a cell with anything in it.");
}

// What a workbook is read as. A file that is none has no CSV, and then `look` says what it is.
async function workbookAnswer({ id, workbook, sheet }) {
  try {
    const head = await viewOf(workbook, 0, 4);
    if (head.getUint32(0) !== OLE) return { id, ...(await sheetOf(workbook, sheet)) };
    const text = new TextDecoder("latin1").decode(await workbook.arrayBuffer());
    if (!text.includes(ENCRYPTED_PART)) return { id, status: 0, csv: null };
    throw new Refused("This workbook is encrypted. Open it with its password in Excel or LibreOffice, and save it without one.");
  } catch (error) {
    if (error instanceof Refused) return { id, status: UNREADABLE, explanation: error.message };
    if (error instanceof DOMException) return { id, status: UNREADABLE, explanation: "The file can't be read. If it was changed or moved, open it again.\n" };
    return { id, status: UNREADABLE, explanation: (error instanceof RangeError ? tooLong() : damaged()).message };
  }
}
