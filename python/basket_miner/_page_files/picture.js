
// The picture as a file: PNG as it is on the screen, and SVG, whose lines, marks and texts a drawing program takes.
const SVG = "http://www.w3.org/2000/svg";

// Draws as the pen of a canvas does, as far as the picture needs it, and keeps what it drew as SVG.
class Written {
  constructor() {
    this.parts = [];
    this.kept = [];
    Object.assign(this, { globalAlpha: 1, lineWidth: 1, dash: [], turned: "", path: null });
    Object.assign(this, { fillStyle: "", strokeStyle: "", textAlign: "left" });
  }

  add(tag, attributes, text = "") {
    const one = document.createElementNS(SVG, tag);
    const more = { opacity: this.globalAlpha, ...(this.turned ? { transform: this.turned } : {}) };
    for (const [name, value] of Object.entries({ ...attributes, ...more })) one.setAttribute(name, value);
    one.textContent = text;
    this.parts.push(one);
  }

  get line() {
    return { fill: "none", stroke: this.strokeStyle.trim(), "stroke-width": this.lineWidth, "stroke-dasharray": this.dash.join(" ") };
  }

  save() {
    this.kept.push(this.turned);
  }

  restore() {
    this.turned = this.kept.pop();
  }

  translate(x, y) {
    this.turned += `translate(${x} ${y})`;
  }

  rotate(angle) {
    this.turned += `rotate(${(angle * 180) / Math.PI})`;
  }

  setLineDash(dash) {
    this.dash = dash;
  }

  strokeRect(x, y, width, height) {
    if (width && height) this.add("rect", { x, y, width, height, ...this.line });
    else this.add("line", { x1: x, y1: y, x2: x + width, y2: y + height, ...this.line });
  }

  fillRect(x, y, width, height) {
    this.add("rect", { x, y, width, height, fill: this.fillStyle.trim() });
  }

  fillText(text, x, y) {
    const anchor = { left: "start", center: "middle", right: "end" }[this.textAlign];
    this.add("text", { x, y, fill: this.fillStyle.trim(), "text-anchor": anchor }, text);
  }

  drawMark(x, y, colour, isLow) {
    const edge = { fill: colour, stroke: getComputedStyle(document.documentElement).getPropertyValue("--ink").trim(), "stroke-width": 0.5 };
    const corners = [[0, 1], [-0.87, -0.5], [0.87, -0.5]].map(([right, down]) => `${x + radius * right},${y + radius * down}`);
    if (isLow) this.add("polygon", { points: corners.join(" "), ...edge });
    else this.add("circle", { cx: x, cy: y, r: radius, ...edge });
  }
}

function svgOf() {
  const { clientWidth: width, clientHeight: height } = canvas;
  const made = document.createElementNS(SVG, "svg");
  const shape = { viewBox: `0 0 ${width} ${height}`, width, height, "font-family": "system-ui, sans-serif", "font-size": 12 };
  for (const [name, value] of Object.entries(shape)) made.setAttribute(name, value);
  const written = new Written();
  written.fillStyle = getComputedStyle(document.documentElement).getPropertyValue("--paper");
  written.fillRect(0, 0, width, height);
  pen = written;
  at = -1; // A ring is no part of it.
  try {
    drawAll();
  } finally {
    pen = screen;
  }
  const title = document.createElementNS(SVG, "title");
  title.textContent = canvas.getAttribute("aria-label");
  made.append(title, ...written.parts);
  return new Blob([new XMLSerializer().serializeToString(made)], { type: "image/svg+xml" });
}

// What is on the canvas, on paper.
function pngOf() {
  at = -1;
  draw();
  const made = document.createElement("canvas");
  [made.width, made.height] = [canvas.width, canvas.height];
  const paper = made.getContext("2d");
  paper.fillStyle = getComputedStyle(document.documentElement).getPropertyValue("--paper");
  paper.fillRect(0, 0, made.width, made.height);
  paper.drawImage(canvas, 0, 0);
  return new Promise((done) => made.toBlob(done, "image/png"));
}

function startPictures() {
  element("save-png").addEventListener("click", async () => save(await pngOf(), "rules.png"));
  element("save-svg").addEventListener("click", () => save(svgOf(), "rules.svg"));
  element("copy-picture").addEventListener("click", async () => {
    try {
      await navigator.clipboard.write([new ClipboardItem({ "image/png": pngOf() })]);
      tellBriefly("Copied: paste the picture into a text or a slide.");
    } catch {
      tellBriefly("The browser doesn't let this page copy a picture: save it as PNG.");
    }
  });
}
