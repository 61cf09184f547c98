// The colours of lifts: grey is 1, blue is below it and red above, as far as the lifts go. They go by the root of the
// logarithm, so that one strong rule leaves colours to the others.
const SHADES = 32; // Colours on each side of the middle.
let colours = [];
const LEAST_END = 1.5; // Lifts near 1 stay near grey, also where there are no others.
let end = LEAST_END; // The lift at which the colours end, as at its reciprocal.

// Few lifts are farther from 1 than the end.
function endOf(lifts) {
  const sizes = Float64Array.from(lifts, (lift) => Math.max(lift, 1 / lift)).sort();
  const most = sizes[Math.floor(0.98 * (sizes.length - 1))];
  return most > LEAST_END ? most : LEAST_END;
}

function shadeOf(lift) {
  const far = SHADES * Math.sqrt(Math.min(Math.abs(Math.log(lift)) / Math.log(end), 1));
  return lift < 1 ? SHADES - Math.max(Math.round(far), 1) : SHADES + Math.round(far);
}

function colourOf(lift) {
  return colours[shadeOf(lift)];
}

function makeColours() {
  const style = getComputedStyle(document.documentElement);
  const [low, high] = ["--lows", "--highs"].map((name) =>
    style.getPropertyValue(name).match(/[0-9a-f]{6}/g).map((colour) => colour.match(/../g).map((part) => parseInt(part, 16))));
  colours = Array.from({ length: 2 * SHADES + 1 }, (_, shade) => {
    const stops = shade < SHADES ? low : high;
    const part = (Math.abs(shade - SHADES) / SHADES) * (stops.length - 1);
    const near = Math.min(Math.floor(part), stops.length - 2);
    return `rgb(${stops[near].map((from, i) => Math.round(from + (part - near) * (stops[near + 1][i] - from))).join(" ")})`;
  });
  makeStamps(style.getPropertyValue("--ink"));
  tellColours();
}

// The bar goes as far as the lifts do, and has 1 on it.
function tellColours() {
  const lifts = columns.lift?.values ?? [];
  let [least, most] = [1, 1];
  for (const lift of lifts) [least, most] = [Math.min(least, lift), Math.max(most, lift)];
  const [from, to] = [shadeOf(least), Math.max(shadeOf(most), SHADES)];
  const bar = colours.slice(Math.min(from, SHADES), to + 1);
  element("colours").style.background = bar.length > 1 ? `linear-gradient(to right, ${bar.join(",")})` : bar[0];
  const more = (text, isCut, word) => (isCut ? `${text} or ${word}` : text);
  element("low").textContent = least < 1 ? more(short(Math.max(least, 1 / end)), least < 1 / end, "less") : "1";
  element("high").textContent = most > 1 ? more(short(Math.min(most, end)), most > end, "more") : "1";
  element("one").hidden = least >= 1 || most <= 1;
  element("one").style.left = `${(100 * (SHADES - from)) / Math.max(to - from, 1)}%`;
}
