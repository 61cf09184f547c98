// The filters. A text asks for items by parts of their names, with commas between them; in quotes it is a whole name.
const TEXTS = ["left", "right", "either", "without"];
const FIGURES = ["support", "most", "confidence", "lift"];
const JUDGED = ["significant", "repeated"]; // What hides rules that are not significant, and those that repeat others.
let isChosen = false; // Whether a person said which of these are hidden.
let hidden = [0, 0]; // How many each of these hides, of those that pass the other filters.
const OFFERED = 40; // Names that are offered for what is typed.

// What a text asks for, and where the last of it begins.
function wanted(text) {
  const found = [];
  const part = /\s*(?:"((?:[^"]|"")*)"?|([^,]*))\s*(?:,|$)/y;
  let last = 0;
  while (part.lastIndex < text.length) {
    last = part.lastIndex;
    const [, quoted, plain] = part.exec(text) ?? [undefined, "", text.slice(last)];
    if (part.lastIndex <= last) part.lastIndex = text.length;
    const name = quoted === undefined ? plain.trim() : quoted.replaceAll('""', '"');
    if (name) found.push({ name, isWhole: quoted !== undefined });
  }
  return { found, last: /,\s*$/.test(text) ? text.length : last };
}

// For each side whether it has an item that is asked for.
function sidesWith({ name, isWhole }) {
  const small = name.toLowerCase();
  const isMeant = Uint8Array.from(items, (item) => (isWhole ? item.name === name : item.small.includes(small)));
  const isIn = new Uint8Array(data.sides.length);
  for (let side = 0; side < isIn.length; side++) {
    for (let place = begins[side]; place < begins[side + 1]; place++) isIn[side] |= isMeant[members[place]];
  }
  return isIn;
}

// The rules of some that pass all filters.
function passingOf(rules) {
  const [left, right, either, without] = TEXTS.map((id) => (isShown(id) ? wanted(element(id).value).found.map(sidesWith) : []));
  // A product of floats may lie just beside the decimal that was typed.
  const [support, most, confidence, lift] = FIGURES.map((id) => (isShown(id) ? Number(element(id).value) : 0));
  const least = [support, confidence, lift].map((value) => value * (1 - 1e-12));
  const highest = most ? most * (1 + 1e-12) : Infinity;
  const sides = data.right ?? data.left;
  const figures = ["support", "confidence", "lift"].map((key) => columns[key]?.values);
  const isAllowed = allowed();
  return rules.filter((rule) => {
    const [one, other] = [data.left[rule], sides[rule]];
    const has = (isIn) => isIn[one] || isIn[other];
    return 100 * figures[0][rule] >= least[0] && 100 * figures[0][rule] <= highest &&
      (!isOfRules || (100 * figures[1][rule] >= least[1] && figures[2][rule] >= least[2])) &&
      left.every((isIn) => isIn[one]) && right.every((isIn) => isIn[other]) &&
      either.every(has) && !without.some(has) && isAllowed(rule);
  });
}

// What says of a rule whether it may be shown, and counts those that may not.
function allowed() {
  hidden = [0, 0];
  const { isSignificant, isRedundant } = data.chance ?? {};
  const [isOnly, isWithout] = JUDGED.map((id) => Boolean(data.chance) && element(id).checked);
  return (rule) => {
    if (isOnly && !isSignificant[rule]) return void hidden[0]++;
    if (isWithout && isRedundant[rule]) return void hidden[1]++;
    return true;
  };
}

// Of a list longer than a screen the rules that say nothing more are hidden, unless a person chose otherwise, or no
// other would be left.
function hideSome() {
  if (!data.chance || isChosen) return;
  const { isSignificant, isRedundant } = data.chance;
  const isLong = size > PAGE;
  element("significant").checked = isLong && isSignificant.some((one, rule) => one && !isRedundant[rule]);
  element("repeated").checked = isLong;
  tellFilters();
}

function tellHidden() {
  const [byChance, byOthers] = hidden;
  const said = [...(byChance ? [`${whole(byChance)} not significant`] : []), ...(byOthers ? [`${whole(byOthers)} redundant`] : [])];
  element("hidden").textContent = said.length ? `Hidden: ${listed(byChance + byOthers)}, ${said.join(" and ")}.` : "";
  element("show-hidden").hidden = !said.length;
}

function isShown(id) {
  return isOfRules || ["either", "without", "support", "most"].includes(id);
}

// Offers whole names, in quotes, for the last part of what is typed.
function offer(field) {
  const { found, last } = wanted(field.value);
  const before = field.value.slice(0, last);
  const small = last < field.value.length ? found.at(-1)?.name.toLowerCase() ?? "" : "";
  const names = [];
  for (const item of items) {
    if (names.length === OFFERED) break;
    if (item.small.includes(small)) names.push(`${before}${before && !before.endsWith(" ") ? " " : ""}"${item.name.replaceAll('"', '""')}"`);
  }
  element("names").replaceChildren(...names.map((name) => new Option("", name)));
}

function tellFilters() {
  const used = [...TEXTS, ...FIGURES].filter((id) => isShown(id) && element(id).value).length +
    JUDGED.filter((id) => data.chance && element(id).checked).length;
  element("filtered").textContent = used ? `(${used} in use)` : "";
}

function startFilters() {
  const soon = onceAFrame(() => {
    tellFilters();
    update();
  });
  element("filters").addEventListener("input", soon);
  element("filters").addEventListener("reset", () => {
    isChosen = true;
    soon();
  });
  for (const id of JUDGED) element(id).addEventListener("change", () => (isChosen = true));
  element("show-hidden").addEventListener("click", () => {
    isChosen = true;
    for (const id of JUDGED) element(id).checked = false;
    tellFilters();
    update();
    element("status").focus();
  });
  element("filters").addEventListener("submit", (event) => event.preventDefault());
  for (const id of TEXTS) {
    element(id).addEventListener("focus", () => offer(element(id)));
    element(id).addEventListener("input", () => offer(element(id)));
  }
  element("unselect").addEventListener("click", () => {
    select(null);
    element("marks").focus({ preventScroll: true });
  });
  element("filtering").open = !matchMedia("(max-width: 699px)").matches;
}
