
// What is shown of a file: its first lines below the roles of their columns, how it is read and why.
const MOST_ROWS = 6;
const MOST_LENGTH = 40; // Of a cell that is shown.
const MOST_BASKETS = 5;
const MOST_NAMES = 12; // Of a basket that is shown.
const FIRST_PAIRS = 4096; // Bytes of the pairs in which the first baskets are.
const PAIR = /("(?:[^"]|"")*"|[^",\n]*),("(?:[^"]|"")*"|[^",\n]*)\n/gy;

// The form of the file in a few words.
function formInWords() {
  const { look, reading, words } = source;
  if (reading.form === "fimi") return "numbers, a basket on each line";
  if (reading.form === "counts") return "sets with counts";
  const form = words.includes("--marks") ? "a column for each item" : words.includes("--basket") ? "an item on each line" :
    words.includes("--within") ? "the items of a basket in one cell" : "a basket on each line";
  const fields = look.separator ? `separated by ${look.separator}` : "fields by their places";
  return [form, fields, `${look.header ? "with" : "without"} a header`, ...(isFixed() ? ["its weight first"] : [])].join(", ");
}

function tellForm() {
  const { look, reading } = source;
  element("recognised").textContent = formInWords();
  element("encoding").value = encodingOf();
  element("written").hidden = isFixed();
  element("roles").hidden = isFixed();
  for (const cell of element("first-lines").querySelectorAll("[data-column]")) {
    const role = roleOf(Number(cell.dataset.column));
    cell.dataset.role = role;
    const shown = cell.querySelector(".role");
    if (shown) shown.textContent = role;
  }
  const isOther = encodingOf() !== look.encoding;
  const chosen = ["As you chose it.", ...(isOther ? [`The lines below are still shown in ${encodingName(look.encoding)}.`] : [])];
  const said = isChanged() ? chosen : [...reading.because, ...reading.notes];
  element("because").textContent = said.join(" ");
  const doubts = isChanged() || !reading.doubts.length ? [] : [made("p", `Not sure: ${reading.doubts.join(" ")}`)];
  const others = source.readings.filter((other) => other !== reading || isChanged());
  element("doubts").replaceChildren(...doubts, ...others.map(offerReading));
}

function offerReading(reading) {
  const offer = made("p", `${reading === source.reading ? "As it was recognised" : "It may also be"}: ${reading.because.join(" ")} `);
  const button = made("button", "Read it so", offer);
  button.type = "button";
  button.addEventListener("click", () => {
    change(() => takeReading(reading));
    element("ask").focus();
  });
  return offer;
}

// The first lines below the heads of their columns, each a button that changes the column's role.
function showLines() {
  const { columns, rows } = source.look;
  const line = (role) => Object.assign(made("div"), { role });
  const cell = (row, kind, { number }, text) => {
    const one = made("div", text, row);
    one.role = kind;
    one.dataset.column = number;
    return one;
  };
  const head = line("row");
  for (const column of columns) {
    const name = column.name || `column ${column.number}`;
    const place = cell(head, "columnheader", column);
    const top = made(isFixed() ? "span" : "button", undefined, place);
    made("bdi", name, top);
    made("span", undefined, top).className = "role";
    if (isFixed()) continue;
    top.type = "button";
    top.addEventListener("click", () => change(() => turnRole(column.number)));
  }
  const lines = rows.slice(0, MOST_ROWS).map((cells) => {
    const row = line("row");
    columns.forEach((column, place) => cell(row, "cell", column, shortened(cells[place] ?? "")));
    return row;
  });
  element("lines").hidden = !columns.length;
  element("first-lines").replaceChildren(head, ...lines);
}

function shortened(text) {
  return text.length > MOST_LENGTH ? `${text.slice(0, MOST_LENGTH - 1)}…` : text;
}

// The first baskets, as `look` or else the pairs have them.
async function tellBaskets(own, pairs) {
  const { look, reading } = source;
  const isFirst = reading === look.readings[0] && !isChanged();
  const baskets = new Map(isFirst ? look.baskets.map(({ id, items }) => [id, new Set(items)]) : []);
  const text = isFirst || !pairs ? "" : await pairs.slice(0, FIRST_PAIRS).text();
  for (const [, ...fields] of text.matchAll(PAIR)) {
    const [id, item] = fields.map((field) => (field.startsWith('"') ? field.slice(1, -1).replaceAll('""', '"') : field));
    baskets.set(id, (baskets.get(id) ?? new Set()).add(item));
  }
  if (own !== turn) return;
  element("baskets").replaceChildren(...[...baskets].slice(0, MOST_BASKETS).map(([id, items]) => {
    const one = made("li");
    made("bdi", id, one);
    one.append(": ");
    addNames([...items].slice(0, MOST_NAMES), one);
    return one;
  }));
  element("begun").hidden = !baskets.size;
}
