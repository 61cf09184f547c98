
// Which rules are more than chance, and which only repeat shorter ones: what `p_values`, `is_significant` and
// `is_redundant` of the Python package say, by the same formulas. It is in the worker too.
const LEVEL = 0.05;
// A term that adds less than this share of the sum changes no digit.
const LEAST_SHARE = 2 ** -60;
const MOST_HYPOTHESES = 10n ** 300n; // A float has no larger number, and no p-value times it is below 1 but 0.
// Below so many Stirling's series is not exact enough.
const FEW = [0];
for (let n = 1, factorial = 1; n < 32; n++) FEW.push(Math.log((factorial *= n)) + n - n * Math.log(n));

// log n! - n log n + n.
function restOf(number) {
  if (number < FEW.length) return FEW[number];
  const square = number * number;
  return Math.log(2 * Math.PI * number) / 2 + (1 / 12 - (1 / 360 - (1 / 1260 - 1 / 1680 / square) / square) / square) / number;
}

// The logarithm of a table's chance, by which no large numbers cancel (Loader 2000).
function logChance(both, left, right, neither) {
  const total = both + left + right + neither;
  const [one, other, first, last] = [both + left, right + neither, both + right, left + neither];
  const excess = both * neither - left * right;
  const part = (cell, row, column, sign) => (cell ? cell * Math.log1p((sign * excess) / (row * column)) : 0);
  return restOf(one) + restOf(other) + restOf(first) + restOf(last) - restOf(both) - restOf(left) - restOf(right) - restOf(neither) - restOf(total) -
    part(both, one, first, 1) - part(left, one, last, -1) - part(right, other, first, -1) - part(neither, other, last, 1);
}

// The chance of a table and of all after it, over that of the table.
function sumFrom(both, left, right, neither) {
  let [sum, term] = [1, 1];
  while (term > LEAST_SHARE * sum) {
    term *= (left-- * right--) / (++both * ++neither);
    sum += term;
  }
  return sum;
}

// The chance of at least so many baskets with both sides, if all ways to place these are equally likely. Terms fall
// away from the mean alone: on its other side the rest is summed.
function upperTail(both, left, right, total) {
  const isHigh = both * total >= left * right;
  const [first, side] = isHigh ? [both, left] : [right - both + 1, total - left];
  const cells = [first, side - first, right - first, total - side - right + first];
  const chance = cells.some((cell) => cell < 0) ? 0 : Math.exp(logChance(...cells)) * sumFrom(...cells);
  return Math.min(Math.max(isHigh ? chance : 1 - chance, 0), 1);
}

// How many rules could have been listed: those of up to so many items that the largest rule has.
function hypothesesOf(items, largest, rules) {
  let [ways, sum] = [1n, 0n];
  for (let size = 1; size <= largest; size++) {
    ways = (ways * BigInt(items - size + 1)) / BigInt(size);
    sum += ways * ((1n << BigInt(size)) - 2n);
  }
  return sum > rules ? sum : BigInt(rules);
}

// Which p-values are significant by Holm's correction.
function significantOf(p, hypotheses) {
  const all = Number(hypotheses < MOST_HYPOTHESES ? hypotheses : MOST_HYPOTHESES);
  const found = new Uint8Array(p.length);
  const order = Uint32Array.from(p.keys()).sort((one, other) => p[one] - p[other]);
  for (let place = 0; place < order.length && p[order[place]] * (all - place) <= LEVEL; place++) found[order[place]] = 1;
  return found;
}

// Whether a confidence is at least another, as fractions.
function isAsSure(both, left, otherBoth, otherLeft) {
  const [one, other] = [both * otherLeft, otherBoth * left];
  if (Number.isSafeInteger(one) && Number.isSafeInteger(other)) return one >= other;
  return BigInt(both) * BigInt(otherLeft) >= BigInt(otherBoth) * BigInt(left);
}

// For each rule whether one with fewer of its antecedents and the same consequents is as sure. The antecedents of the
// rules of some consequents are a tree, by their items in order.
function redundantOf({ left, right, both, withLeft, begins, members }) {
  const itemsOf = (side) => members.slice(begins[side], begins[side + 1]).sort();
  const sides = new Map();
  const trees = new Map();
  for (let rule = 0; rule < both.length; rule++) {
    if (!sides.has(left[rule])) sides.set(left[rule], itemsOf(left[rule]));
    if (!trees.has(right[rule])) trees.set(right[rule], { rule: -1, next: new Map() });
    let node = trees.get(right[rule]);
    for (const item of sides.get(left[rule])) {
      if (!node.next.has(item)) node.next.set(item, { rule: -1, next: new Map() });
      node = node.next.get(item);
    }
    node.rule = rule;
  }
  const hasAsSure = (node, items, from, depth, rule) => {
    if (node.rule >= 0 && depth < items.length && isAsSure(both[node.rule], withLeft[node.rule], both[rule], withLeft[rule])) return true;
    for (let at = from; at < items.length; at++) {
      const next = node.next.get(items[at]);
      if (next && hasAsSure(next, items, at + 1, depth + 1, rule)) return true;
    }
    return false;
  };
  return Uint8Array.from(both, (_, rule) => hasAsSure(trees.get(right[rule]), sides.get(left[rule]), 0, 0, rule));
}

// What is said of rules whose items are of so many.
function chanceOf({ rules, items }) {
  const { left, right, both, withLeft, withRight, total, begins } = rules;
  const p = Float64Array.from(both, (count, rule) => upperTail(count, withLeft[rule], withRight[rule], total));
  const sizeOf = (side) => begins[side + 1] - begins[side];
  const largest = both.reduce((most, _, rule) => Math.max(most, sizeOf(left[rule]) + sizeOf(right[rule])), 0);
  const hypotheses = hypothesesOf(items, largest, both.length);
  return { p, isSignificant: significantOf(p, hypotheses), isRedundant: redundantOf(rules), hypotheses: `${hypotheses}` };
}
