// What is shown, as CSV. A side is a list of names, and is written as a record of CSV in one field.
const STEP = 5000; // Rows that are written before the page may do something else.
// A spreadsheet takes a cell that begins so for a formula, and one with an apostrophe before it for text.
const FORMULA = /^[=+@-]/;

function field(text) {
  return /[",\r\n]|^\s|\s$/.test(text) ? `"${text.replaceAll('"', '""')}"` : text;
}

function recordOf(rule) {
  const side = (key) => {
    const names = namesOf(key, rule).map(field).join(",");
    return field(FORMULA.test(names) ? `'${names}` : names);
  };
  const { support, confidence, lift } = columns;
  const figures = isOfRules
    ? [data.both[rule], data.withLeft[rule], data.withRight[rule], data.total, support.values[rule], confidence.values[rule], lift.values[rule]]
    : [data.both[rule], data.total, support.values[rule]];
  const { p, isSignificant, isRedundant } = data.chance ?? {};
  if (data.chance) figures.push(p[rule], isSignificant[rule] > 0, isRedundant[rule] > 0);
  return `${[side("left"), ...(isOfRules ? [side("right")] : []), ...figures].join(",")}\r\n`;
}

function headerOf() {
  return isOfRules
    ? `antecedents,consequents,count,antecedent count,consequent count,baskets,support,confidence,lift${data.chance ? ",p_value,is_significant,is_redundant" : ""}\r\n`
    : "itemset,count,baskets,support\r\n";
}

async function csvOf(rules) {
  const parts = ["\uFEFF", headerOf()];
  for (let first = 0; first < rules.length; first += STEP) {
    parts.push(Array.from(rules.slice(first, first + STEP), recordOf).join(""));
    await new Promise((done) => setTimeout(done));
  }
  return new Blob(parts, { type: "text/csv" });
}

function save(blob, name) {
  const link = made("a");
  link.href = URL.createObjectURL(blob);
  link.download = name;
  link.click();
  setTimeout(() => URL.revokeObjectURL(link.href), 60_000);
}

function startSaving() {
  startPictures();
  element("save-shown").addEventListener("click", async () => {
    const said = [];
    if (data.found > size) said.push(`The file has what is shown of ${extent()}.`);
    const isFormula = (key, rule) => columns[key]?.isSide && FORMULA.test(namesOf(key, rule)[0]);
    if (shown.some((rule) => isFormula("left", rule) || isFormula("right", rule))) {
      said.push("In it, an apostrophe stands before names that begin with =, +, - or @: a spreadsheet would take them for formulas.");
    }
    save(await csvOf(shown), isOfRules ? "rules.csv" : "itemsets.csv");
    if (said.length) tellBriefly(said.join(" "));
  });
}
