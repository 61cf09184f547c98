// What a mouse, a finger and the keyboard do on the picture.
const REACH = 10; // How far from a mark a click may be.
let at = -1; // The rule whose mark the keyboard is at.
let marks = null; // One rule of each mark, by support and then by height, once they are asked for.

function nearest(x, y) {
  let [found, least] = [-1, REACH ** 2];
  for (const rule of passing) {
    const distance = (xs[rule] - x) ** 2 + (ys[rule] - y) ** 2;
    if (distance < least) [found, least] = [rule, distance];
  }
  return found;
}

function rulesAt(rule) {
  const [supports, heights] = [columns.support.values, columns[up.key].values];
  return passing.filter((other) => supports[other] === supports[rule] && heights[other] === heights[rule]);
}

// What is said of the mark of a rule: its figures, and up to three rules there.
function told(rule) {
  const rules = rulesAt(rule);
  const line = (one) => [one, up.key === "lift" ? `confidence ${percent(columns.confidence.values[one])}` : `lift ${short(columns.lift.values[one])}`];
  return {
    figures: `support ${percent(columns.support.values[rule])}, ${up.key} ${columns[up.key].text(columns[up.key].values[rule])}`,
    rules: [...rules.slice(0, 3)].map(line),
    more: rules.length > 3 ? `and ${many(rules.length - 3, "rule")} more` : "",
  };
}

function inWords({ figures, rules, more }) {
  return [figures, ...rules.map(([rule, figure]) => `${nameOf(rule)} (${figure})`), more].filter(Boolean).join("\n");
}

function showTip(rule) {
  const tip = element("tip");
  tip.hidden = rule < 0;
  if (rule < 0) return;
  const { figures, rules, more } = told(rule);
  tip.replaceChildren(made("div", figures));
  for (const [one, figure] of rules) {
    const line = made("div", undefined, tip);
    addNames(namesOf("left", one), line);
    line.append(" → ");
    addNames(namesOf("right", one), line);
    line.append(` (${figure})`);
  }
  if (more) made("div", more, tip);
  const isRight = xs[rule] > canvas.clientWidth / 2;
  tip.style.left = isRight ? "auto" : `${xs[rule] + 14}px`;
  tip.style.right = isRight ? `${canvas.clientWidth - xs[rule] + 14}px` : "auto";
  tip.style.top = `${Math.max(Math.min(ys[rule] + 10, canvas.clientHeight - tip.offsetHeight - MARGIN.bottom), 4)}px`;
}

function selectMark(rule) {
  const values = [columns.support.values[rule], columns[up.key].values[rule]];
  select(rule < 0 ? null : { support: [values[0], values[0]], [up.key]: [values[1], values[1]] });
  element("told").textContent = rule < 0 ? "" : element("top").textContent;
}

function selectBetween(from, to) {
  const [one, other] = [valuesAt(...from), valuesAt(...to)];
  const [support, height] = [0, 1].map((axis) => [Math.min(one[axis], other[axis]), Math.max(one[axis], other[axis])]);
  select({ support, [up.key]: height });
}

function startPointing() {
  let began = null;
  const frame = element("drawn");
  const end = () => {
    began = null;
    frame.hidden = true;
  };
  canvas.addEventListener("pointerdown", (event) => {
    began = [event.offsetX, event.offsetY];
    // A finger scrolls the page, and a mouse draws.
    if (event.pointerType !== "touch") canvas.setPointerCapture(event.pointerId);
  });
  canvas.addEventListener("pointermove", ({ offsetX: x, offsetY: y, pointerType }) => {
    showTip(began ? -1 : nearest(x, y));
    if (!began || pointerType === "touch") return;
    frame.hidden = false;
    frame.style.left = `${Math.min(x, began[0])}px`;
    frame.style.top = `${Math.min(y, began[1])}px`;
    frame.style.width = `${Math.abs(x - began[0])}px`;
    frame.style.height = `${Math.abs(y - began[1])}px`;
  });
  canvas.addEventListener("pointerup", ({ offsetX: x, offsetY: y, pointerType }) => {
    const from = began ?? [x, y];
    end();
    if (!across) return; // Another listing came, whose picture has not begun.
    if (Math.hypot(x - from[0], y - from[1]) < 5) selectMark(nearest(x, y));
    else if (pointerType !== "touch") selectBetween(from, [x, y]);
  });
  canvas.addEventListener("pointercancel", end);
  canvas.addEventListener("pointerleave", () => showTip(-1));
}

function forgetMarks() {
  marks = null;
}

function makeMarks() {
  const [xPlaces, yPlaces] = [columns.support.values, columns[up.key].values].map(placesOf);
  const places = placesOf(xPlaces.map((place, rule) => place * size + yPlaces[rule]));
  const rules = new Int32Array(size).fill(-1);
  for (const rule of passing) if (rules[places[rule]] < 0) rules[places[rule]] = rule;
  marks = { places, rules: rules.filter((rule) => rule >= 0) };
}

// Goes some marks on from the one that the keyboard is at, or from where it would be if it passed.
function goTo(step) {
  if (!marks) makeMarks();
  const { places, rules } = marks;
  let place = -1;
  if (at >= 0) {
    place = rules.findIndex((rule) => places[rule] >= places[at]);
    if (place < 0) place = rules.length - 1;
    else if (places[rules[place]] !== places[at] && step > 0) place--;
  } else if (!step) place = 0;
  at = rules[Math.min(Math.max(place + step, 0), rules.length - 1)] ?? -1;
  return at;
}

function startKeys() {
  const steps = { ArrowRight: 1, ArrowUp: 1, ArrowLeft: -1, ArrowDown: -1, PageUp: 10, PageDown: -10, Home: -Infinity, End: Infinity };
  canvas.addEventListener("keydown", (event) => {
    if (event.key === "Escape") {
      showTip(-1);
      select(null);
    } else if (event.key === "Enter" || event.key === " ") selectMark(goTo(0));
    else if (event.key in steps) {
      const rule = goTo(steps[event.key]);
      if (rule >= 0) {
        showTip(rule);
        element("told").textContent = inWords(told(rule));
      }
      redraw();
    } else return;
    event.preventDefault();
  });
  canvas.addEventListener("focus", redraw);
  canvas.addEventListener("blur", () => {
    showTip(-1);
    redraw();
  });
}
