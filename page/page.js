
// The page: a file is opened, its form recognised, a minimum found, and questions are asked as soon as anything is changed.
const FEW_RULES = 10; // With fewer, a new file begins at the next lower confidence.
const CONFIDENCES = [50, 20, 5, 0];
const EXAMPLE = "example.csv";
// What was opened: { name, whole: its blob, given: the blob of its data, dataName, isMade: whether these are not the file
// itself, sheets, sheet, look: what `look` says, readings, reading: that which is taken, words: of `pairs` }.
let source = null;
// What is mined, once all of it is there: { name, input: a blob, pairs: the words of `pairs`, if these wrote it, words:
// of a command line for its form, separator, letter: the separator's name, total, mined: its itemsets once some are }.
let file = null;
let opening = null; // The turn of an opening, and whether the form has a question for it.
let kept = linked(); // What the address says of the question, until a file is there.

// A new file: what it is, how many baskets it has, and a minimum to begin with.
function open(whole, name, sheet = stateFor(name).get("sheet")) {
  source = opening = null;
  tellSheets({});
  return during(`Reading ${name}`, async (own) => {
    beginOpening(own);
    await ready;
    const found = await dataOf(own, whole, name, sheet);
    if (!found || own !== turn) return;
    const { data: given, ...more } = found;
    const answer = await lookedAt(own, given);
    if (!answer) return;
    if (answer.status !== 0) return sayFault(answer.explanation);
    const look = JSON.parse(new TextDecoder().decode(answer.report));
    source = { name, whole, given, ...more, look, readings: readingsOf(look) };
    tellSource();
    if (source.reading) await prepare(own);
    else sayFault(refusalOf(source.look, name));
  });
}

// The same file in another form.
function again() {
  return during(`Reading ${source.name}`, (own) => {
    beginOpening(own);
    return prepare(own);
  });
}

// A file is there with all that belongs to it, or it is not there.
function beginOpening(own) {
  opening = { own, isAsked: Boolean(opening?.isAsked) };
  file = null;
  clear();
  element("begun").hidden = true;
  allowMinimum(false);
  tellLeast();
}

function tellSource() {
  const { name, readings } = source;
  tellSheets(source);
  tellData(source);
  element("file-name").textContent = name;
  element("question").hidden = !readings.length;
  document.body.classList.add("opened");
  document.title = `${name} - basket`;
  if (!readings.length) return;
  takeReading(readings[0]);
  showLines();
  element("glance").open = false;
}

// The file in a form that is mined, its number of baskets and its first minimum; then the first question.
async function prepare(own) {
  tellForm();
  const { name, dataName, look } = source;
  const ways = waysOf();
  const input = await inputOf(own, ways);
  if (!input) return;
  await tellBaskets(own, ways.pairs && input);
  saySoon(own, `Counting the baskets of ${name}.`);
  const answer = await ask(own, ["count", "--sets", "sets", ...ways.words, "-"], input, { sets: nothing });
  if (!answer) return;
  if (answer.status !== 0) return sayFaultOfFile(answer.explanation);
  const total = Number(new TextDecoder().decode(answer.report).match(/\d+/)?.[0] ?? 0);
  if (!total) return sayFaultOfFile("There is no basket in it.");
  const made = { name: dataName, input, ...ways, total, mined: null };
  const state = stateFor(name);
  saySoon(own, "Looking for a minimum to begin with.");
  const least = Number(state.get("min")) || await firstLeast(own, made, look.minimum);
  if (least === null) return;
  file = made;
  setTotal(total);
  await askFirst(own, state, least);
}

// What the address says of the question to a file: of that to another, its kind alone.
function stateFor(name) {
  return kept.get("file") === name ? kept : new URLSearchParams([...kept].filter(([key]) => key === "ask"));
}

// The first question is that of the address, or the form has it already; else rules may need a lower confidence.
async function askFirst(own, state, least = leastCount()) {
  const isAsked = Boolean(opening?.isAsked);
  opening = null;
  kept = new URLSearchParams();
  if (!isAsked) takeQuestion(state);
  setLeast(Math.min(Number(state.get("min")) || least, file.total));
  takeState(state);
  await mine(own);
  if (isAsked || state.has("conf") || element("ask").value !== "rules") return;
  for (const confidence of CONFIDENCES) {
    if (own !== turn || !report || data.found >= FEW_RULES || confidence >= Number(element("confidence-least").value)) continue;
    element("confidence-least").value = confidence;
    await mine(own);
  }
}

function takeQuestion(state) {
  if ([...element("ask").options].some(({ value }) => value === state.get("ask"))) element("ask").value = state.get("ask");
  if (state.get("conf")) element("confidence-least").value = state.get("conf");
}

// The form has another question: while a file is opened, it is that file's first.
function askAnew() {
  if (opening) opening.isAsked = true;
  if (opening?.own === turn) tellQuestion();
  else if (file) during("Mining", mine);
  else if (source?.reading) again();
}

function openFile(one) {
  return open(one, one.name);
}

function openExample() {
  return open(new Blob([element("example-text").textContent]), EXAMPLE);
}

// The question is a part of the address, with the name of its file.
moreState = () => {
  if (!file) return [];
  const sheet = source.sheets.length > 1 ? [["sheet", source.sheet]] : [];
  return [["file", source.name], ...sheet, ["ask", element("ask").value], ["min", leastCount()], ["conf", element("confidence-least").value]];
};

function startOpening() {
  element("choose").addEventListener("click", () => element("file").click());
  element("example").addEventListener("click", openExample);
  element("file").addEventListener("change", () => {
    if (element("file").files[0]) openFile(element("file").files[0]);
    element("file").value = "";
  });
  addEventListener("dragover", (event) => {
    if (isTyped(event) && !event.dataTransfer.types.includes("Files")) return;
    event.preventDefault();
    element("drop").classList.add("over");
  });
  addEventListener("dragleave", () => element("drop").classList.remove("over"));
  addEventListener("drop", (event) => {
    element("drop").classList.remove("over");
    if (isTyped(event) && !event.dataTransfer.files.length) return;
    event.preventDefault();
    openTransfer(event.dataTransfer, "dropped text");
  });
  addEventListener("paste", (event) => {
    if (!isTyped(event)) openTransfer(event.clipboardData, "pasted text");
  });
}

// Whether a text is meant for a field.
function isTyped({ target }) {
  return Boolean(target.closest?.("input, textarea"));
}

// What is dropped or pasted: a file, or a text, beside which a spreadsheet leaves a picture of its cells.
function openTransfer(transfer, name) {
  const text = transfer.getData("text");
  const files = [...transfer.files];
  const one = files.find(({ type }) => !text || !type.startsWith("image/"));
  if (one) openFile(one);
  else if (text) open(new Blob([text]), name);
}

function startQuestion() {
  element("question").addEventListener("submit", (event) => event.preventDefault());
  element("encoding").addEventListener("change", () => change(() => takeEncoding(element("encoding").value)));
  element("minimum").addEventListener("input", () => {
    setLeast(counts[Number(element("minimum").value)]);
    askAnew();
  });
  element("least").addEventListener("change", () => {
    setLeast(leastCount());
    askAnew();
  });
  element("ask").addEventListener("change", () => {
    if (element("ask").value === "count") offerSets();
    askAnew();
  });
  for (const id of ["confidence-least", "given"]) element(id).addEventListener("input", askAnew);
  element("end").addEventListener("click", () => {
    begin();
    endQuestion();
    if (report) fillQuestion(report.question);
    keepLink();
    say("Stopped.");
    element(source?.reading ? "ask" : "choose").focus();
  });
  element("save-report").addEventListener("click", () => {
    const name = report.file.name.replace(/\.\w+$/, "");
    save(new Blob([report.bytes]), `${name}-${report.question.what}.${report.file.separator === OF_NUMBERS ? "txt" : "csv"}`);
  });
}

function startPage() {
  const { version, module: kind, kit } = JSON.parse(element("facts").textContent);
  element("version").textContent = `version ${version}, ${kind}, made by ${kit}`;
  element("unproved").hidden = kind === "proved";
  startOpening();
  startQuestion();
  startUnpacking();
  startFilters();
  element("filtering").open = false;
  startTable();
  startSaving();
  startLink();
  startPlot();
  addEventListener("hashchange", () => {
    kept = linked();
    if (file) during("Mining", (own) => askFirst(own, stateFor(source.name)));
  });
  ready.then(() => kept.get("file") === EXAMPLE && openExample(), (error) => {
    element("trouble").textContent = error.message;
    for (const id of ["choose", "example"]) element(id).disabled = true;
  });
}

startPage();
