// The axes: from values to places on the canvas and back.
const MARGIN = { left: 56, right: 16, top: 14, bottom: 44 };
const LOG_FROM = 5; // The most over the least from which an axis goes by magnitude.
let across = null; // Of what is listed, once its picture has begun.
let up = null;

function forgetAxes() {
  across = null;
}

function axisOf(key, mayBeLog) {
  const { values, text } = columns[key];
  let [low, high] = [Infinity, -Infinity];
  for (const value of values) [low, high] = [Math.min(low, value), Math.max(high, value)];
  if (!size) [low, high] = [0.1, 1];
  const isLog = mayBeLog && high / low >= LOG_FROM;
  const into = isLog ? Math.log10 : (value) => value;
  const back = isLog ? (place) => 10 ** place : (place) => place;
  const margin = 0.06 * (into(high) - into(low)) || 0.1 * low || 0.1;
  const isShare = text === percent;
  return { key, isLog, isShare, into, back, from: into(low) - margin, to: into(high) + margin };
}

// The room between the axes.
function frameOf() {
  const { clientWidth: width, clientHeight: height } = canvas;
  return { left: MARGIN.left, top: MARGIN.top, width: width - MARGIN.left - MARGIN.right, height: height - MARGIN.top - MARGIN.bottom };
}

function placeOf(x, y, frame = frameOf()) {
  return [
    frame.left + part(across, x) * frame.width,
    frame.top + (1 - part(up, y)) * frame.height,
  ];
}

function part(axis, value) {
  return (axis.into(value) - axis.from) / (axis.to - axis.from);
}

function valuesAt(x, y) {
  const frame = frameOf();
  const [right, above] = [(x - frame.left) / frame.width, 1 - (y - frame.top) / frame.height];
  return [
    across.back(across.from + right * (across.to - across.from)),
    up.back(up.from + above * (up.to - up.from)),
  ];
}

function ticksOf(axis) {
  const [low, high] = [axis.back(axis.from), axis.back(axis.to)];
  if (axis.isLog) {
    const powers = Array.from({ length: 26 }, (_, power) => 10 ** (power - 13));
    const steps = high / low > 300 ? [1] : high / low > 20 ? [1, 2, 5] : [1, 1.5, 2, 3, 4, 5, 7];
    return powers.flatMap((power) => steps.map((step) => step * power)).filter((tick) => tick >= low && tick <= high);
  }
  const rough = (high - low) / 6;
  const power = 10 ** Math.floor(Math.log10(rough));
  const step = [1, 2, 5, 10].find((times) => times * power >= rough) * power;
  const first = Math.ceil(low / step);
  const ticks = Array.from({ length: 12 }, (_, number) => (first + number) * step);
  return ticks.filter((tick) => tick <= (axis.isShare ? Math.min(high, 1.0001) : high) && tick >= 0);
}

function drawAxes(style) {
  const { left, top, width, height } = frameOf();
  const [ink, line] = [style.getPropertyValue("--faint"), style.getPropertyValue("--line")];
  pen.font = "12px system-ui, sans-serif";
  pen.lineWidth = 1;
  pen.fillStyle = ink;
  const label = (axis, tick) => (axis.isShare ? `${Number((100 * tick).toPrecision(6))}%` : `${Number(tick.toPrecision(6))}`);
  const title = (axis) => `${axis.key}${axis.isLog ? ", by magnitude" : ""}`;
  pen.textAlign = "center";
  for (const tick of ticksOf(across)) {
    const x = Math.round(left + part(across, tick) * width) + 0.5;
    pen.strokeStyle = line;
    pen.strokeRect(x, top, 0, height);
    pen.fillText(label(across, tick), x, top + height + 16);
  }
  pen.fillText(title(across), left + width / 2, top + height + 36);
  pen.textAlign = "right";
  for (const tick of ticksOf(up)) {
    const y = Math.round(top + (1 - part(up, tick)) * height) + 0.5;
    // A lift of 1 is where chance is.
    pen.strokeStyle = !up.isShare && tick === 1 ? ink : line;
    pen.strokeRect(left, y, width, 0);
    pen.fillText(label(up, tick), left - 6, y + 4);
  }
  pen.save();
  pen.translate(13, top + height / 2);
  pen.rotate(-Math.PI / 2);
  pen.textAlign = "center";
  pen.fillText(title(up), 0, 0);
  pen.restore();
}
