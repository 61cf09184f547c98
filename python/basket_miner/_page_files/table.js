// The table: one page of what is shown, its head, and the details of a row.
const PAGE = 50;
const PRINTED = 1000; // Rows that are printed.
let page = 0;

function list(rows = PAGE) {
  const pages = Math.max(Math.ceil(shown.length / PAGE), 1);
  page = Math.min(Math.max(page, 0), pages - 1);
  const first = rows === PAGE ? page * PAGE : 0;
  document.querySelector("tbody").replaceChildren(...[...shown.slice(first, first + rows)].map(row));
  for (const id of ["first", "previous"]) element(id).setAttribute("aria-disabled", page === 0);
  for (const id of ["next", "last"]) element(id).setAttribute("aria-disabled", page === pages - 1);
  element("turn").hidden = pages === 1;
  const of = selection ? `${whole(passing.length)}, by the selection` : extent();
  element("status").textContent = `${listed(shown.length)} of ${of}, page ${whole(page + 1)} of ${whole(pages)}`;
  element("save-shown").disabled = !shown.length;
  tellFirst();
  tellHidden();
}

function row(rule) {
  const line = made("tr");
  line.setAttribute("role", "row");
  for (const [key, column] of Object.entries(columns)) {
    const cell = made("td", undefined, line);
    cell.setAttribute("role", "cell");
    cell.className = column.isSide ? "side" : "figure";
    cell.dataset.name = column.name;
    if (key === "left") cell.append(opener(rule, line));
    else if (column.isSide) addNames(namesOf(key, rule), made("span", undefined, cell));
    else made("span", column.text(column.values[rule]), cell);
    if (key === "lift") cell.prepend(spot(rule));
    if (key === "p") addJudgement(rule, cell);
    if (key === "support") cell.style.setProperty("--part", column.values[rule]);
  }
  return line;
}

function judgementOf(rule) {
  const { isSignificant, isRedundant } = data.chance;
  return [...(isSignificant[rule] ? [] : ["not significant"]), ...(isRedundant[rule] ? ["redundant"] : [])];
}

function addJudgement(rule, cell) {
  for (const word of judgementOf(rule)) made("small", word, cell);
}

function spot(rule) {
  const made = document.createElement("i");
  made.style.background = colourOf(columns.lift.values[rule]);
  return made;
}

// The button that shows and hides the details of a row.
function opener(rule, line) {
  const button = made("button");
  addNames(namesOf("left", rule), made("span", undefined, button));
  button.type = "button";
  button.setAttribute("aria-expanded", "false");
  button.setAttribute("aria-label", `${nameOf(rule)}, details`);
  button.addEventListener("click", () => {
    const isOpen = button.getAttribute("aria-expanded") === "true";
    button.setAttribute("aria-expanded", String(!isOpen));
    line.classList.toggle("open", !isOpen);
    if (isOpen) line.nextSibling.remove();
    else line.after(details(rule));
  });
  return button;
}

function details(rule) {
  const both = data.both[rule];
  const line = made("tr");
  line.className = "details";
  line.setAttribute("role", "row");
  const cell = made("td", undefined, line);
  cell.setAttribute("role", "cell");
  cell.colSpan = Object.keys(columns).length;
  addSentence(rule, made("p", undefined, cell));
  const pairs = made("dl", undefined, cell);
  for (const [name, value] of isOfRules ? [
    ["baskets", whole(data.total)], ["support", fraction(both, data.total)],
    ["with the antecedents", whole(data.withLeft[rule])], ["confidence", fraction(both, data.withLeft[rule])],
    ["with the consequents", whole(data.withRight[rule])], ["lift", fraction(...exactLift(rule))],
    ["with both", whole(both)],
    ...(data.chance ? [["p-value", shortChance(data.chance.p[rule])]] : []),
  ] : [["baskets", whole(data.total)], ["support", fraction(both, data.total)], ["with the itemset", whole(both)]]) {
    made("dt", name, pairs);
    made("dd", value, pairs);
  }
  return line;
}

function head() {
  const cells = Object.entries(columns).map(([key, column]) => {
    const cell = made("th");
    cell.scope = "col";
    cell.dataset.key = key;
    cell.setAttribute("role", "columnheader");
    cell.className = column.isSide ? "side" : "figure";
    const button = made("button", column.name, cell);
    button.type = "button";
    addMeaning(key, cell, button);
    button.addEventListener("click", () => {
      sorted = { key, isFalling: sorted.key === key ? !sorted.isFalling : !column.isSide && !column.isSmallFirst };
      tellSort();
      sort();
      update();
    });
    return cell;
  });
  document.querySelector("thead tr").replaceChildren(...cells);
  tellSort();
}

// What a head means is shown while the mouse or the keyboard is at it, until Escape, and read out with it.
function addMeaning(key, cell, button) {
  const meaning = made("span", meaningOf(key), cell);
  meaning.id = `meaning-${key}`;
  meaning.className = "meaning";
  button.setAttribute("aria-describedby", meaning.id);
  cell.addEventListener("keydown", (event) => event.key === "Escape" && cell.classList.add("closed"));
  for (const kind of ["focusin", "pointerenter"]) cell.addEventListener(kind, () => cell.classList.remove("closed"));
}

function tellSort() {
  for (const cell of document.querySelectorAll("th")) {
    if (cell.dataset.key !== sorted.key) cell.removeAttribute("aria-sort");
    else cell.setAttribute("aria-sort", sorted.isFalling ? "descending" : "ascending");
  }
}

function turnTo(number) {
  page = number;
  list();
  keepLink();
}

function startTable() {
  const steps = { first: () => 0, previous: () => page - 1, next: () => page + 1, last: () => Infinity };
  for (const [id, to] of Object.entries(steps)) {
    element(id).addEventListener("click", () => {
      if (element(id).getAttribute("aria-disabled") !== "true") turnTo(to());
    });
  }
  // Paper is white, and has no pages that turn.
  addEventListener("beforeprint", () => {
    document.documentElement.classList.add("printed");
    makeColours();
    list(PRINTED);
    const left = shown.length - PRINTED;
    element("printed").textContent = left > 0 ? `The first ${whole(PRINTED)} are printed, ${whole(left)} are not.` : "";
    draw();
  });
  addEventListener("afterprint", () => {
    document.documentElement.classList.remove("printed");
    makeColours();
    list();
    draw();
  });
}
