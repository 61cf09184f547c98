// The address of the page has what is filtered, sorted and selected, so a link shows another the same.
const SORTS = ["left", "right", "items", "count", "support", "confidence", "lift", "p"];

function stateOf() {
  const state = new URLSearchParams();
  for (const id of [...TEXTS, ...FIGURES]) if (element(id).value && isShown(id)) state.set(id, element(id).value);
  if (sorted.key !== (isOfRules ? "lift" : "count") || !sorted.isFalling) state.set("sort", `${sorted.isFalling ? "-" : ""}${sorted.key}`);
  if (isChosen && data.chance) state.set("hidden", JUDGED.filter((id) => element(id).checked).join("_"));
  if (element("picture").value === "lift") state.set("picture", "lift");
  for (const [key, ends] of Object.entries(selection ?? {})) state.set(`${key}-in`, ends.join("_"));
  if (page) state.set("page", page + 1);
  return state;
}

// What is beside the listing in the address of the page; another page adds to it.
let moreState = () => [];

// Browsers count how often an address is written, so a slider that moves writes it at its end.
const LINK_AFTER = 200;
let linkSoon = 0;

function keepLink() {
  clearTimeout(linkSoon);
  linkSoon = setTimeout(writeLink, LINK_AFTER);
}

function writeLink() {
  const state = stateOf();
  for (const [key, value] of moreState()) state.set(key, value);
  const address = `#${state}`;
  if (address === (location.hash || "#")) return;
  try {
    history.replaceState(null, "", address);
  } catch {
    // A frame in a notebook has no address of its own.
  }
}

// The state that the address of the page has.
function linked() {
  return new URLSearchParams(location.hash.slice(1));
}

// Fills the form, the order and the selection in, before the first update.
function takeState(state) {
  for (const id of [...TEXTS, ...FIGURES]) element(id).value = state.get(id) ?? "";
  isChosen = state.has("hidden");
  for (const id of JUDGED) if (isChosen) element(id).checked = state.get("hidden").split("_").includes(id);
  const sort = state.get("sort") ?? "";
  if (SORTS.includes(sort.replace("-", ""))) sorted = { key: sort.replace("-", ""), isFalling: sort.startsWith("-") };
  element("picture").value = state.get("picture") === "lift" ? "lift" : "confidence";
  const areas = ["support", "confidence", "lift"].flatMap((key) => {
    const ends = (state.get(`${key}-in`) ?? "").split("_").map(Number);
    return ends.length === 2 && ends.every(Number.isFinite) ? [[key, ends]] : [];
  });
  selection = areas.length === 2 ? Object.fromEntries(areas) : null;
  tellFilters();
}

function tellBriefly(text) {
  element("done").textContent = text;
  setTimeout(() => (element("done").textContent = ""), 8000);
}

function startLink() {
  element("copy-link").addEventListener("click", async () => {
    writeLink();
    try {
      await navigator.clipboard.writeText(location.href);
      tellBriefly("Copied: it shows these filters, this order and this selection.");
    } catch {
      tellBriefly("The address of this page has the filters, the order and the selection: copy it.");
    }
  });
}
