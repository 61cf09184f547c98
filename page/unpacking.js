
// The data in what is opened: a file may be packed, or be a workbook. What is mined then is a file of its own.
const MOST_LAYERS = 20; // A file that is packed again and again is unpacked so often.
const GZIP = 0x1f8b;
const BOOKS = [0x504b0304, 0xd0cf11e0]; // How a zip file begins, as workbooks are, and one of Excel before 2007.

async function beginningOf(blob) {
  return new DataView(await new Blob([blob.slice(0, 4), new Uint8Array(4)]).arrayBuffer());
}

// The data and its name, and of a workbook its sheets and the one that is taken. Null if a newer turn came or the file
// was refused.
async function dataOf(own, given, name, sheet) {
  let data = given;
  let layers = 0;
  for (; layers < MOST_LAYERS && (await beginningOf(data)).getUint16(0) === GZIP; layers++) data = await unzipped(data);
  const plain = { data, dataName: layers ? name.replace(/\.gz$/i, "") : name, isMade: layers > 0, sheets: [] };
  if (!BOOKS.includes((await beginningOf(data)).getUint32(0))) return plain;
  const book = await askWorker(own, { workbook: data, sheet });
  if (!book) return null;
  if (book.status !== 0) return void sayFault(book.explanation);
  if (!book.csv) return plain;
  const { csv, sheets, sheet: taken } = book;
  return { data: csv, dataName: `${plain.dataName.replace(/\.xls\w?$/i, "")}.csv`, isMade: true, sheets, sheet: taken };
}

// Which sheet is read may be chosen where there are several.
function tellSheets({ sheets = [], sheet = "" }) {
  element("sheets").hidden = sheets.length < 2;
  element("sheet").replaceChildren(...sheets.map((name) => new Option(name, name)));
  element("sheet").value = sheet;
}

function tellData({ isMade, sheets }) {
  element("data").hidden = !isMade;
  element("encoding").parentElement.hidden = sheets.length > 0;
  element("data-is").textContent = sheets.length ? "What is mined is the sheet as CSV: " : "What is mined is the file as it is unpacked: ";
}

function startUnpacking() {
  element("sheet").addEventListener("change", () => open(source.whole, source.name, element("sheet").value));
  element("save-data").addEventListener("click", () => save(source.given, source.dataName));
}
