// What is listed: rules, or itemsets, which have no right side. Sides stand in the order of their texts.
let data = { sides: [], left: [], both: [], total: 0 };
let isOfRules = true;
let size = 0;
let columns = {}; // By their keys: what is read in the head, the values, and how one is shown.
let items = []; // The names of all items, in small letters too.
let members = new Uint32Array(0); // The numbers of the items of all sides, one side behind the other.
let begins = new Uint32Array(1); // Where the items of each side begin among them.

let sorted = { key: "lift", isFalling: true };
let order = new Uint32Array(0);
let passing = order; // Those that pass the filters, in order.
let shown = order; // Those of them that are selected too.
let selection = null; // The least and the most of each of two columns.

function take(given) {
  const isOther = size > 0 && isOfRules !== (given.right !== undefined);
  data = given;
  size = data.both.length;
  isOfRules = data.right !== undefined;
  document.body.classList.toggle("of-sets", !isOfRules);
  document.body.classList.toggle("nothing", !size);
  document.body.classList.toggle("judged", Boolean(data.chance));
  ({ members, begins, items } = numbered(data.sides));
  columns = isOfRules ? columnsOfRules() : columnsOfSets();
  if (isOther || !columns[sorted.key]) sorted = { key: isOfRules ? "lift" : "count", isFalling: true };
  sort();
  passing = shown = order;
  forgetAxes();
}

// The items of sides, by numbers.
function numbered(sides) {
  const numbers = new Map();
  const begins = new Uint32Array(sides.length + 1);
  sides.forEach((names, side) => (begins[side + 1] = begins[side] + names.length));
  const members = new Uint32Array(begins.at(-1));
  let place = 0;
  for (const names of sides) {
    for (const name of names) {
      if (!numbers.has(name)) numbers.set(name, numbers.size);
      members[place++] = numbers.get(name);
    }
  }
  const items = [...numbers.keys()].map((name) => ({ name, small: name.toLowerCase() }));
  return { members, begins, items };
}

function columnsOfRules() {
  return {
    left: { name: "Antecedents", values: data.left, isSide: true },
    right: { name: "Consequents", values: data.right, isSide: true },
    ...commonColumns(),
    confidence: { name: "Confidence", values: Float64Array.from(data.both, (count, rule) => count / data.withLeft[rule]), text: percent },
    lift: { name: "Lift", values: Float64Array.from(data.both, liftOf), text: short },
    ...(data.chance ? { p: { name: "p-value", values: data.chance.p, text: shortChance, isSmallFirst: true } } : {}),
  };
}

function columnsOfSets() {
  return {
    left: { name: "Itemset", values: data.left, isSide: true },
    items: { name: "Items", values: Float64Array.from(data.left, (side) => data.sides[side].length), text: whole },
    ...commonColumns(),
  };
}

function commonColumns() {
  return {
    count: { name: "Count", values: data.both, text: whole },
    support: { name: "Support", values: Float64Array.from(data.both, (count) => count / data.total), text: percent },
  };
}

// The float next to the exact lift.
function liftOf(both, rule) {
  const [top, bottom] = [both * data.total, data.withLeft[rule] * data.withRight[rule]];
  if (Number.isSafeInteger(top) && Number.isSafeInteger(bottom)) return top / bottom;
  const [exactTop, exactBottom] = exactLift(rule);
  return Number(exactTop) / Number(exactBottom);
}

function exactLift(rule) {
  return [BigInt(data.both[rule]) * BigInt(data.total), BigInt(data.withLeft[rule]) * BigInt(data.withRight[rule])];
}

function namesOf(key, rule) {
  return data.sides[columns[key].values[rule]];
}

function nameOf(rule) {
  const [left, right] = ["left", "right"].map((key) => (columns[key] ? namesOf(key, rule).map(inList).join(", ") : ""));
  return isOfRules ? `${left} → ${right}` : left;
}

function listed(count) {
  return many(count, isOfRules ? "rule" : "itemset");
}

// What is listed where more were found, and how many are listed, of how many if these are more.
function strongest() {
  return `the ${whole(size)} ${isOfRules ? "strongest" : "most frequent"}`;
}

function extent() {
  return data.found > size ? `${strongest()} of ${whole(data.found)}` : whole(size);
}

// For each value its place among all that differ.
function placesOf(values) {
  const rising = Float64Array.from(values).sort();
  const distinct = rising.filter((value, place) => place === 0 || value !== rising[place - 1]);
  const places = new Float64Array(rising.length);
  for (let rule = 0; rule < places.length; rule++) {
    const value = values[rule];
    let low = 0;
    let high = distinct.length - 1;
    while (low < high) {
      const middle = (low + high) >> 1;
      if (distinct[middle] < value) low = middle + 1;
      else high = middle;
    }
    places[rule] = low;
  }
  return places;
}

// Sorts whole numbers that have a value's place and a rule in them: that takes a tenth of what comparing takes.
function sort() {
  const sign = sorted.isFalling ? size : 0;
  const keys = placesOf(columns[sorted.key].values).map((place, rule) => (sign ? sign - 1 - place : place) * size + rule);
  order = Uint32Array.from(keys.sort(), (key) => key % size);
}

// Those of some rules that are selected, or those that are not.
function selectedOf(rules, isWanted = true) {
  const [[xs, fromX, toX], [ys, fromY, toY]] = Object.entries(selection).map(([key, ends]) => [columns[key].values, ...ends]);
  return rules.filter((rule) => (xs[rule] >= fromX && xs[rule] <= toX && ys[rule] >= fromY && ys[rule] <= toY) === isWanted);
}

function update() {
  passing = passingOf(order);
  shown = selection ? selectedOf(passing) : passing;
  page = 0;
  forgetMarks();
  tellSelection();
  list();
  redraw();
  keepLink();
}

function select(areas) {
  selection = areas;
  update();
}

function tellSelection() {
  const said = selection ? Object.entries(selection).map(([key, [least, most]]) => {
    const [from, to] = [least, most].map((value) => columns[key].text(value));
    return `${key} ${from === to ? from : `${from} to ${to}`}`;
  }) : [];
  element("area").textContent = said.length ? `Selected: ${said.join(", ")}` : "";
  element("selected").hidden = !selection;
  element("unselect").disabled = !selection;
}
