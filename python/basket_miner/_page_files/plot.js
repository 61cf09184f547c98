// The picture: a mark for each rule, by support and confidence or by support and lift. Triangles are below a lift of 1.
const canvas = element("marks");
const screen = canvas.getContext("2d");
let pen = screen; // What is drawn with: another writes a file.
const MOST_MARKS = 5000; // Of more rules, squares show where they are.
const SQUARE = 5;
let radius = 6;
let xs = new Float32Array(0);
let ys = new Float32Array(0);
let stamps = [];
let stampsOf = 0; // The resolution that the stamps were made for.

function startPicture() {
  radius = size <= 300 ? 6 : 4;
  end = endOf(columns.lift.values);
  [xs, ys] = [new Float32Array(size), new Float32Array(size)];
  makeAxes();
  makeColours();
}

function makeAxes() {
  across = axisOf("support", true);
  up = element("picture").value === "lift" ? axisOf("lift", true) : axisOf("confidence", false);
  element("plotted").textContent = titleOfPicture();
}

function makeStamps(ink) {
  stampsOf = devicePixelRatio;
  stamps = colours.map((colour, shade) => stamp(colour, shade < SHADES, ink));
}

// A mark, drawn once.
function stamp(colour, isLow, ink) {
  const made = document.createElement("canvas");
  const scale = devicePixelRatio;
  made.width = made.height = Math.ceil((2 * radius + 2) * scale);
  const tip = made.getContext("2d");
  tip.scale(scale, scale);
  tip.translate(radius + 1, radius + 1);
  tip.beginPath();
  if (isLow) {
    for (const [x, y] of [[0, 1], [-0.87, -0.5], [0.87, -0.5]]) tip.lineTo(radius * x, radius * y);
    tip.closePath();
  } else tip.arc(0, 0, radius, 0, 2 * Math.PI);
  tip.fillStyle = colour;
  tip.fill();
  tip.lineWidth = size <= 300 ? 1 : 0.5;
  tip.strokeStyle = ink;
  tip.stroke();
  return made;
}

function draw() {
  if (!across || !canvas.clientWidth) return;
  if (stampsOf !== devicePixelRatio) makeColours();
  [canvas.width, canvas.height] = [canvas.clientWidth * devicePixelRatio, canvas.clientHeight * devicePixelRatio];
  pen.scale(devicePixelRatio, devicePixelRatio);
  drawAll();
  canvas.setAttribute("aria-label", `${listed(passing.length)} by support and ${up.key}, coloured by lift`);
}

function drawAll() {
  const style = getComputedStyle(document.documentElement);
  drawAxes(style);
  const frame = frameOf();
  const [supports, heights] = [columns.support.values, columns[up.key].values];
  for (const rule of passing) [xs[rule], ys[rule]] = placeOf(supports[rule], heights[rule], frame);
  const drawSome = passing.length > MOST_MARKS ? drawSquares : drawMarks;
  for (const isChosen of selection ? [false, true] : [true]) {
    pen.globalAlpha = isChosen ? 1 : 0.2;
    drawSome(isChosen ? shown : selectedOf(passing, false));
  }
  pen.globalAlpha = 1;
  drawSelection(style);
  drawRing(style);
}

// Lifts far from 1 lie above those near it, and a mark that another hides is not drawn.
function drawMarks(rules) {
  const lifts = columns.lift.values;
  const falling = Float64Array.from(rules, (rule) => (SHADES - Math.abs(shadeOf(lifts[rule]) - SHADES)) * size + rule).sort();
  const wide = 2 * radius + 2;
  const taken = new Set();
  const visible = [];
  for (const key of falling) {
    const rule = key % size;
    const place = Math.round(2 * xs[rule]) * 65536 + Math.round(2 * ys[rule]);
    if (!taken.has(place)) visible.push(rule);
    taken.add(place);
  }
  for (const rule of visible.reverse()) {
    const shade = shadeOf(lifts[rule]);
    if (pen.drawMark) pen.drawMark(xs[rule], ys[rule], colours[shade], shade < SHADES);
    else pen.drawImage(stamps[shade], xs[rule] - radius - 1, ys[rule] - radius - 1, wide, wide);
  }
  return visible.length;
}

// A square is as large as it has rules, and as red or blue as the strongest of them.
function drawSquares(rules) {
  const lifts = columns.lift.values;
  const wide = Math.ceil(canvas.clientWidth / SQUARE) + 1;
  const counts = new Uint32Array(wide * (Math.ceil(canvas.clientHeight / SQUARE) + 1));
  const shades = new Uint8Array(counts.length).fill(SHADES);
  let most = 2;
  for (const rule of rules) {
    const place = Math.floor(ys[rule] / SQUARE) * wide + Math.floor(xs[rule] / SQUARE);
    const shade = shadeOf(lifts[rule]);
    if (Math.abs(shade - SHADES) > Math.abs(shades[place] - SHADES)) shades[place] = shade;
    most = Math.max(most, ++counts[place]);
  }
  let drawn = 0;
  counts.forEach((count, place) => {
    if (!count) return;
    const side = SQUARE * (0.5 + (0.5 * Math.log(count)) / Math.log(most));
    const [x, y] = [(place % wide) + 0.5, Math.floor(place / wide) + 0.5];
    pen.fillStyle = colours[shades[place]];
    pen.fillRect(x * SQUARE - side / 2, y * SQUARE - side / 2, side, side);
    drawn++;
  });
  return drawn;
}

// The selection stays in sight as long as it holds.
function drawSelection(style) {
  const [x, y] = [selection?.support, selection?.[up.key]];
  if (!x || !y) return;
  const [[left, bottom], [right, top]] = [placeOf(x[0], y[0]), placeOf(x[1], y[1])];
  const margin = left === right || top === bottom ? radius + 4 : 0;
  pen.strokeStyle = style.getPropertyValue("--link");
  pen.lineWidth = 1.5;
  pen.setLineDash([5, 4]);
  pen.strokeRect(left - margin, top - margin, right - left + 2 * margin, bottom - top + 2 * margin);
  pen.setLineDash([]);
}

// A ring around the mark that the keyboard is at.
function drawRing(style) {
  if (at < 0 || document.activeElement !== canvas || document.documentElement.classList.contains("printed")) return;
  pen.strokeStyle = style.getPropertyValue("--link");
  pen.lineWidth = 2.5;
  pen.beginPath();
  pen.arc(xs[at], ys[at], radius + 5, 0, 2 * Math.PI);
  pen.stroke();
}

const redraw = onceAFrame(draw);

function startPlot() {
  element("picture").addEventListener("change", () => {
    makeAxes();
    select(null);
  });
  startPointing();
  startKeys();
  new ResizeObserver(redraw).observe(canvas);
  matchMedia("(prefers-color-scheme: dark)").addEventListener("change", () => {
    makeColours();
    list();
    redraw();
  });
}

function titleOfPicture() {
  const title = element("picture").value === "lift" ? "Support and lift" : "Support and confidence";
  return data.found > size ? `${title} of ${extent()} rules` : title;
}
