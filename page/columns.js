
// What a person makes of the columns: each is one of the basket's, one of items or marks, or left out.
const LEFT_OUT = "left out";

// A list of columns, as 2-5,8 or 3-, with or without one of them.
function spansOf(list) {
  return list.split(",").filter(Boolean).map((span) => {
    const [first, last = first] = span.split("-");
    return [Number(first), Number(last || Infinity)];
  });
}

function without(list, column) {
  return listOf(spansOf(list).flatMap(([first, last]) => (column < first || column > last ? [[first, last]] : [[first, column - 1], [column + 1, last]])));
}

function listOf(spans) {
  const parts = [];
  for (const [first, last] of spans.filter(([one, other]) => one <= other).sort(([one], [other]) => one - other)) {
    if (parts.length && parts.at(-1)[1] + 1 >= first) parts.at(-1)[1] = Math.max(parts.at(-1)[1], last);
    else parts.push([first, last]);
  }
  return parts.map(([first, last]) => (first === last ? first : `${first}-${last === Infinity ? "" : last}`)).join(",");
}

function optionOfItems() {
  return source.reading.pairs.includes("--marks") ? "--marks" : "--item";
}

function keysOf() {
  return valueOf(source.words, "--basket").split(",").filter(Boolean);
}

function roleOf(column) {
  if (isFixed() && column === 1) return source.reading.form === "counts" ? "count" : "weight";
  if (keysOf().some((key) => parseInt(key) === column)) return "basket";
  const option = optionOfItems();
  const isTaken = spansOf(valueOf(source.words, option)).some(([first, last]) => first <= column && column <= last);
  return isTaken ? option.slice(2).replace(/s$/, "") : LEFT_OUT;
}

// A column that is left out becomes one of the basket's, then one of items, then is left out.
function turnRole(column) {
  const [option, role] = [optionOfItems(), roleOf(column)];
  const items = without(valueOf(source.words, option), column);
  const keys = keysOf().filter((key) => parseInt(key) !== column);
  put("--basket", [...keys, ...(role === LEFT_OUT ? [column] : [])].join(","));
  put(option, role === "basket" ? listOf([...spansOf(items), [column, column]]) : items);
}
