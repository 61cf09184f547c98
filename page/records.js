// The records of a report, by their bytes: in the worker, since a report may be longer than a text can be.
const [QUOTE, LINE_FEED, PARENTHESIS, ZERO] = Array.from('"\n(0', (letter) => letter.charCodeAt(0));

// Where each record ends, how many rules itemsets have at most, which is one for each way to cut an itemset in two, and
// which records are of one item.
function cut(report, separator) {
  const [ends, ofOne] = [[], []];
  let [isQuoted, names, rules] = [false, 0, 0];
  for (let at = 0; at < report.length; at++) {
    const byte = report[at];
    if (byte === QUOTE) isQuoted = !isQuoted;
    else if (isQuoted) continue;
    else if (byte === separator) names++;
    else if (byte === LINE_FEED) {
      if (names === 1) ofOne.push(ends.length);
      ends.push(at + 1);
      rules += Math.max(2 ** names - 2, 0);
      names = 0;
    }
  }
  return { ends, rules, ofOne };
}

// The count of an itemset, or the lift of a rule. Records of numbers have their names first.
function measure(report, begin, end, isOfNumbers, isOfRules) {
  const figures = [];
  let at = isOfNumbers ? report.indexOf(PARENTHESIS, begin) + 1 : begin;
  while (figures.length < (isOfRules ? 5 : 1) && at < end) {
    let value = 0;
    for (; report[at] >= ZERO && report[at] <= ZERO + 9; at++) value = 10 * value + report[at] - ZERO;
    figures.push(value);
    while (at < end && !(report[at] >= ZERO && report[at] <= ZERO + 9)) at++;
  }
  return isOfRules ? figures[3] / figures[4] : figures[0];
}

// How many records a report has, the counts of its single items, and what is listed: of more records than so many, those
// of the greatest lift or count.
function listedOf(report, { most, separator, isOfRules }) {
  const { ends, rules, ofOne } = cut(report, separator.charCodeAt(0));
  const lines = ends.length;
  const begins = [0, ...ends.slice(0, -1)];
  const measureOf = (place) => measure(report, begins[place], ends[place], separator === " ", isOfRules);
  const singles = isOfRules ? [] : ofOne.map(measureOf);
  if (lines <= most) return { lines, rules, singles, listed: report };
  const measures = Float64Array.from(ends, (_, place) => measureOf(place));
  const least = measures.slice().sort()[lines - most];
  let equal = most - measures.reduce((above, value) => above + (value > least), 0);
  const isListed = measures.map((value) => value > least || (value === least && equal-- > 0));
  const parts = ends.flatMap((end, place) => (isListed[place] ? [report.subarray(begins[place], end)] : []));
  return { lines, rules, singles, listed: joined(parts) };
}
