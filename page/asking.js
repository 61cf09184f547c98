// A question: its words from the form, the answer to it, and what is said of it.
const MOST_SETS = 200_000; // Frequent itemsets beyond which a question is refused.
const MOST_RULES = 2_000_000; // Rules that itemsets may have beyond which these are refused.
const SLOW = 400; // Milliseconds after which the page says that it is at work.
let report = null; // What is listed: the bytes of the report, its question, and the file that this was asked of.

// Says what a turn has come to.
function say(text, isFault = false) {
  document.querySelector("main").setAttribute("aria-busy", "false");
  element("end").hidden = true;
  tell(text, isFault);
}

function tell(text, isFault = false) {
  element("answered").textContent = text;
  element("answered").classList.toggle("fault", isFault);
}

// Says what a turn is at, if it still is after a while.
function saySoon(own, text) {
  setTimeout(() => {
    if (own !== turn || document.querySelector("main").getAttribute("aria-busy") !== "true") return;
    tell(text);
    element("end").hidden = false;
  }, SLOW);
}

function sayFault(text) {
  clear();
  element("question").hidden = !source?.reading;
  say(text, true);
}

// There is no list.
function clear() {
  report = null;
  element("save-report").disabled = true;
  document.body.classList.add("empty");
}

// Begins a turn, which ends what an older one is at.
function begin() {
  document.querySelector("main").setAttribute("aria-busy", "true");
  element("end").hidden = true;
  return ++turn;
}

// Has a new turn do something. What it is at is said after a while, and whatever fails is said.
async function during(doing, action) {
  const own = begin();
  saySoon(own, `${doing}.`);
  try {
    await action(own);
  } catch (error) {
    if (own === turn) sayFault(`${doing} failed: ${error.message}`);
  }
}

// The question that the form has now.
function questionOf() {
  const what = element("ask").value;
  const question = { what, least: leastCount(), confidence: element("confidence-least").value, given: element("given").value };
  const words = what === "count" ? [what, "--sets", "sets"] : [what, "--min", `${question.least}`];
  if (what === "rules") words.push("--conf", `${question.confidence}%`);
  return { ...question, words };
}

function fillQuestion({ what, least, confidence, given }) {
  element("ask").value = what;
  element("confidence-least").value = confidence;
  element("given").value = given;
  setLeast(least);
  tellQuestion();
}

// How itemsets are mined, which their report does not tell.
function minedBy({ total }, limit = MOST_SETS) {
  return ["--miner", minerFor(total), "--limit", `${limit}`];
}

// The command that writes the same report.
function commandOf({ what, words }) {
  const shell = (word) => (/^[\w./%=+:,@-]+$/.test(word) ? word : `'${word.replaceAll("'", "'\\''")}'`);
  const line = (...some) => ["basket", ...some].map(shell).join(" ");
  const name = file.name.replace(/^-/, "./-");
  const asked = [...words, ...file.words, ...(["items", "count"].includes(what) ? [] : minedBy(file))];
  return file.pairs ? `${line("pairs", ...file.pairs, name)} | ${line(...asked)}` : line(...asked, name);
}

// The sets that are typed in, with commas between the names, as the program reads sets: in CSV after a count.
function givenSets({ given }) {
  const lines = given.split("\n").filter((line) => line.trim());
  const letter = file.separator;
  const written = (name) => (/["\r\n]/.test(name) || name.includes(letter) ? `"${name.replaceAll('"', '""')}"` : name);
  const names = lines.map((line) => wanted(line).found.map(({ name }) => name));
  const isOfNumbers = letter === OF_NUMBERS;
  const text = isOfNumbers ? lines.map((line) => line.replaceAll(",", " ")) : names.map((some) => ["0", ...some.map(written)].join(letter));
  return new TextEncoder().encode(text.map((line) => `${line}\n`).join(""));
}

// Some sets to begin with, from what is shown.
function offerSets() {
  if (element("given").value || !size) return;
  const lines = [...shown.slice(0, 3)].map((rule) => [...namesOf("left", rule), ...(isOfRules ? namesOf("right", rule) : [])].map(inList).join(", "));
  element("given").value = lines.join("\n");
}

function listingOf({ separator }, isOfRules = false) {
  return { separator, isOfRules, most: MOST_LISTED };
}

// The itemsets of a file at a minimum. They are kept as counted sets, of which those at a higher minimum are asked.
async function setsAt(own, file, least, limit) {
  const from = file.mined?.least <= least ? file.mined : file;
  const words = ["sets", "--min", `${least}`, ...from.words, ...minedBy(file, limit), "-"];
  const answer = await ask(own, words, from.input, { listing: listingOf(file) });
  if (answer?.status === 0 && from === file) file.mined = { least, ...countedSets(file, answer.report), rules: answer.rules, singles: answer.singles };
  return answer;
}

// The report of itemsets as an input: the baskets first, as the count of the empty set.
function countedSets({ total, separator, letter }, report) {
  const isOfNumbers = separator === OF_NUMBERS;
  const input = new Blob([isOfNumbers ? `(${total})\n` : `${total}\n`, report]);
  return { input, words: isOfNumbers ? ["--form", "counts"] : ["--form", "csv-counts", "--sep", letter] };
}

// The answer to a question: of the file, or of its itemsets, from which closed and maximal ones and rules follow.
async function answerTo(own, question) {
  const { what, least, words } = question;
  const listing = listingOf(file, what === "rules");
  if (["items", "count"].includes(what)) {
    const sets = what === "count" ? givenSets(question) : null;
    return ask(own, [...words, ...file.words, "-"], file.input, { sets, listing });
  }
  const isMined = file.mined?.least <= least;
  let sets = { milliseconds: 0, memory: 0 };
  if (what === "sets" || !isMined || (what === "rules" && file.mined.rules > MOST_RULES)) {
    sets = await setsAt(own, file, least, MOST_SETS);
    if (what === "sets" || sets?.status !== 0) return sets;
    if (what === "rules" && sets.rules > MOST_RULES) return { status: ENDED, isTooMuch: true, explanation: tooManyRules(sets.rules) };
  }
  const answer = await ask(own, [...words, ...file.mined.words, ...minedBy(file), "-"], file.mined.input, { listing });
  return answer && { ...answer, milliseconds: sets.milliseconds + answer.milliseconds, memory: Math.max(sets.memory, answer.memory) };
}

function tooManyRules(rules) {
  return `These itemsets may have ${whole(rules)} rules, and this page asks for at most ${whole(MOST_RULES)}. ` +
    "Raise the minimum, or list closed or maximal itemsets.";
}

// Has the question of the form answered, and lists what is answered.
async function mine(own) {
  tellQuestion();
  const question = questionOf();
  saySoon(own, "Mining.");
  const answer = await answerTo(own, question);
  if (!answer) return;
  if (answer.status !== 0) return tellFault(answer);
  const read = await readReport(own, answer.listed, file.separator, question.what === "rules", file.total);
  if (!read || (read.right && !(await judge(own, read, question)))) return;
  report = { bytes: answer.report, question, file };
  element("save-report").disabled = false;
  element("command").textContent = commandOf(question);
  await show({ ...read, found: answer.lines > MOST_LISTED ? answer.lines : read.both.length });
  if (own === turn) tellAnswer(answer);
}

// Has it said of each rule how likely it is by chance, and whether it repeats another.
async function judge(own, read, { least }) {
  const { left, right, total, sides } = read;
  const counts = Object.fromEntries(["both", "withLeft", "withRight"].map((key) => [key, Float64Array.from(read[key])]));
  const { members, begins } = numbered(sides);
  const items = file.mined.singles.filter((count) => count >= least).length;
  const answer = await askWorker(own, { chance: { rules: { left, right, total, members, begins, ...counts }, items } });
  if (answer?.p) read.chance = answer;
  return answer;
}

async function show(read) {
  document.body.classList.remove("empty");
  if (selection && !read.right) selection = null;
  take(read);
  hideSome();
  await new Promise((done) => setTimeout(done));
  head();
  at = -1;
  if (isOfRules) startPicture();
  await new Promise((done) => setTimeout(done));
  update();
}

function tellAnswer({ milliseconds, memory }) {
  const found = data.found > size ? `${listed(data.found)}, of which ${strongest()} are listed,` : listed(size);
  const cost = `${whole(Math.round(milliseconds))} ms, ${whole(Math.ceil(memory / 2 ** 20))} MB`;
  element("source").textContent = sourceOf(found);
  say(`${found} in ${many(report.file.total, "basket")} (${cost}).`);
}

// What is read on paper above what is listed.
function sourceOf(found) {
  const { question: { what, least, confidence }, file: { name, total } } = report;
  const minimum = what === "count" ? "" : `, in at least ${many(least, "basket")} of ${whole(total)}`;
  return `${name}: ${found}${minimum}${what === "rules" ? `, confidence at least ${confidence}%` : ""}`;
}

function tellQuestion() {
  const what = element("ask").value;
  document.querySelector(".mined").hidden = what === "count";
  document.querySelector(".sure").hidden = what !== "rules";
  document.querySelector(".given").hidden = what !== "count";
  element("sure-of").textContent = `${element("confidence-least").value}%`;
  tellLeast();
}

