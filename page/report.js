
// From the records of a report that are listed to the listing. They are read in steps, between which the page does
// what it is asked for.
const MOST_LISTED = 100_000; // Records of a report that are listed; the report that is saved has all.
const NUMBERS = /^(.*?)(?: => (.*))? \((\d+)\)(?: (\S+) (\S+))?$/;

// The lines of a report as lists of texts: the count, the names, and of rules how many are on the left, and two fractions.
function* linesOf(text, separator) {
  if (separator !== OF_NUMBERS) {
    yield* fieldsOf(text, separator);
    return;
  }
  for (let at = 0; at < text.length; ) {
    const end = text.indexOf("\n", at);
    const [, left, right, count, confidence, lift] = text.slice(at, end).match(NUMBERS) ?? [];
    at = end + 1;
    const names = [left, right].map((side) => (side ? side.split(" ") : []));
    yield right === undefined ? [count, ...names[0]] : [count, confidence, lift, names[0].length, ...names[0], ...names[1]];
  }
}

function* fieldsOf(text, separator) {
  let record = [];
  for (let at = 0; at < text.length; at++) {
    let name = "";
    while (text[at] === '"') {
      const end = text.indexOf('"', at + 1);
      name += text.slice(at + 1, end);
      at = end + 1;
      if (text[at] === '"') name += '"';
    }
    const begin = at;
    while (text[at] !== separator && text[at] !== "\n") at++;
    record.push(name + text.slice(begin, at));
    if (text[at] === "\n") {
      yield record;
      record = [];
    }
  }
}

// The sides of rules, each once.
class Sides {
  constructor() {
    this.names = [];
    this.places = new Map();
  }

  placeOf(names) {
    const key = JSON.stringify(names);
    let place = this.places.get(key);
    if (place === undefined) {
      place = this.names.push(names) - 1;
      this.places.set(key, place);
    }
    return place;
  }

  // The sides in the order of their texts, and the new place of each.
  inOrder() {
    const texts = this.names.map((names) => names.join(", ").toLowerCase());
    const isNumber = this.names.every((names) => names.every((name) => /^\d{1,10}$/.test(name)));
    const values = isNumber ? Float64Array.from(this.names, ([name]) => Number(name)) : null;
    const order = Array.from(texts.keys()).sort((one, other) => (values && values[one] - values[other]) ||
      (texts[one] < texts[other] ? -1 : texts[one] > texts[other] ? 1 : 0));
    const places = new Uint32Array(order.length);
    order.forEach((old, place) => (places[old] = place));
    return { sides: order.map((place) => this.names[place]), places };
  }
}

// What is listed, or null if a newer turn came. Counts behind the fractions are whole, so rounding finds them.
async function readReport(own, bytes, separator, isOfRules, total) {
  const sides = new Sides();
  const read = { left: [], right: [], both: [], withLeft: [], withRight: [], total };
  let records = 0;
  for (const [count, ...rest] of linesOf(new TextDecoder().decode(bytes), separator)) {
    if (++records % STEP === 0) await new Promise((done) => setTimeout(done));
    if (own !== turn) return null;
    if (isOfRules) {
      const [confidence, lift, length, ...names] = rest;
      addRule(read, Number(count), confidence, lift);
      read.left.push(sides.placeOf(names.slice(0, Number(length))));
      read.right.push(sides.placeOf(names.slice(Number(length))));
    } else if (rest.length && rest[0] !== "") {
      read.both.push(Number(count));
      read.left.push(sides.placeOf(rest));
    }
  }
  await new Promise((done) => setTimeout(done));
  if (own !== turn) return null;
  const { sides: inOrder, places } = sides.inOrder();
  const placed = (side) => Uint32Array.from(side, (place) => places[place]);
  const { both, withLeft, withRight } = read;
  const listed = { sides: inOrder, left: placed(read.left), both, total };
  return isOfRules ? { ...listed, right: placed(read.right), withLeft, withRight } : listed;
}

function addRule({ both, withLeft, withRight, total }, count, confidence, lift) {
  const [top, bottom] = confidence.split("/").map(Number);
  const [liftTop, liftBottom] = lift.split("/").map(Number);
  const left = (count / top) * bottom;
  both.push(count);
  withLeft.push(left);
  withRight.push(Math.round(((count / left) * total * liftBottom) / liftTop));
}
