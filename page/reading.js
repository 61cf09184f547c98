
// How a file is read: what the program's own `look` says of it, and what a person chooses otherwise, which is other
// words of `pairs`.
const LOOKED_AT = (1 << 20) + 1; // One byte more than it reads tells it that there are more.
const LETTERS = { comma: ",", semicolon: ";", tab: "\t", pipe: "|" };
const OF_NUMBERS = " "; // What separates numbers, and no names.
const OF_PAIRS = ["--form", "single"];
// What `look` advises at a command line, and what helps here.
const REMEDIES = { short: "A few more lines of it would do.", unclear: "Save it as CSV with a basket's id and an item on each line." };

function lookedAt(own, blob) {
  return ask(own, ["look", "--json", "-"], blob.slice(0, LOOKED_AT));
}

// What a file is that is not mined, and what helps.
function refusalOf({ kind, what, remedy }, name) {
  const help = REMEDIES[kind] ?? (/^\w*cat$/.test(remedy) ? "Unpack it first." : remedy);
  return `${name} is ${what}. ${help}`.trim();
}

// The readings of a file. `look` names sets with counts in CSV only in a doubt about weights: here they are a reading.
function readingsOf({ readings }) {
  const weighted = readings.find(({ form }) => form === "weighted baskets");
  if (!weighted) return readings;
  const options = weighted.options.filter((word) => word !== "--weight").map((word) => (word === "baskets" ? "csv-counts" : word));
  return [...readings, { ...weighted, form: "counts", options, because: ["Sets with their counts, as reports have them."], doubts: [] }];
}

// Takes a reading of the file that is opened.
function takeReading(reading) {
  Object.assign(source, { reading, words: [...reading.pairs] });
}

function isChanged() {
  const [now, before] = [source.words, source.reading.pairs].map((words) => [...words].sort().join(" "));
  return now !== before;
}

// Whether pairs would lose counts or weights.
function isFixed() {
  return /fimi|count|weight/.test(source.reading.form);
}

function valueOf(words, option) {
  return words.includes(option) ? words[words.indexOf(option) + 1] : "";
}

// Puts an option with its value where it is or at the end, or takes it out.
function put(option, value) {
  const place = source.words.indexOf(option);
  source.words.splice(place < 0 ? source.words.length : place, place < 0 ? 0 : 2, ...(value ? [option, value] : []));
}

// What is shown of a file may be changed once it is that of the file that is opened.
function change(action) {
  if (!source?.reading) return;
  action();
  again();
}

// How the file is mined: the words of `pairs`, if it is rewritten by these, and those of the form that is read then.
function waysOf() {
  const { reading, words } = source;
  const pairs = reading.as_it_is && !isChanged() ? null : [...words];
  const options = pairs ? OF_PAIRS : reading.options;
  const form = valueOf(options, "--form");
  const letter = valueOf(options, "--sep") || "comma";
  return { pairs, words: options, letter, separator: ["", "counts"].includes(form) ? OF_NUMBERS : LETTERS[letter] };
}

function encodingOf() {
  return valueOf(source.words, "--encoding") || "utf-8";
}

function encodingName(name) {
  return element("encoding").querySelector(`[value=${name}]`).textContent;
}

function takeEncoding(name) {
  put("--encoding", name === "utf-8" ? "" : name);
}

// The blob that is mined: the file, or its pairs.
async function inputOf(own, { pairs }) {
  if (!pairs) return source.given;
  if (!pairs.includes(optionOfItems())) return void sayFaultOfFile("No column has the items. Choose one above.");
  const answer = await ask(own, ["pairs", ...pairs, "-"], source.given);
  if (answer?.status === 0) return new Blob([answer.report]);
  if (answer) sayFaultOfFile(answer.explanation);
  return null;
}

// Says what the program says of a file, and what can be chosen here beside that.
function sayFaultOfFile(explanation) {
  element("glance").open = true;
  const [, place] = explanation.match(/^basket: ((?:line|record) \d+)(?:: field is not UTF-8| is not \S+: --encoding)/) ?? [];
  const [, column] = explanation.match(/^basket: no record has a (column \d+)/) ?? [];
  if (place) sayFault(`The file is no text in ${encodingName(encodingOf())} at ${place}. Choose another encoding above.`);
  else sayFault(column ? `No line of the file has a ${column}. Choose other columns above.` : faultInWords({ explanation }));
}
