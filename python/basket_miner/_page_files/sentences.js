
// What is listed, in sentences: a rule or an itemset, what the heads mean, and what helps where nothing is listed.
const MEANINGS = {
  left: ["The items that a basket has.", "The items that are together in a basket."],
  right: "The items that it then has too.",
  items: "How many items the itemset has.",
  count: ["How many baskets have the items of both sides.", "How many baskets have all items of the itemset."],
  support: "The count as a share of all baskets.",
  confidence: "Of the baskets with the antecedents, the share that has the consequents too.",
  lift: "How many times as often the consequents are in baskets with the antecedents as in all baskets. 1 is as often, as by chance; less than 1 is more seldom.",
  p: "The chance that so many baskets have both sides, if these say nothing of each other (Fisher's exact test). A rule is significant if that stays below 5% after Holm's correction for all rules that could be listed, and redundant if a shorter one with the same consequents is at least as sure.",
};

function meaningOf(key) {
  return Array.isArray(MEANINGS[key]) ? MEANINGS[key][isOfRules ? 0 : 1] : MEANINGS[key];
}

// Names as a sentence has them.
function addSpoken(names, parent) {
  names.forEach((name, place) => {
    if (place) parent.append(place === names.length - 1 ? " and " : ", ");
    made("bdi", inList(name), parent);
  });
}

function addSentence(rule, parent) {
  const both = data.both[rule];
  const have = both === 1 ? "has" : "have";
  if (isOfRules) {
    const lift = columns.lift.values[rule];
    parent.append(`Of ${many(data.withLeft[rule], "basket")} with `);
    addSpoken(namesOf("left", rule), parent);
    parent.append(`, ${whole(both)} also ${have} `);
    addSpoken(namesOf("right", rule), parent);
    const often = lift === 1 ? "as often as" : `${short(lift)} times as often as`;
    parent.append(`: ${percent(both / data.withLeft[rule])}, ${often} in all baskets.`);
  } else {
    parent.append(`${whole(both)} of ${many(data.total, "basket")} ${have} `);
    addSpoken(namesOf("left", rule), parent);
    parent.append(`: ${percent(both / data.total)}.`);
  }
}

// The first of what is shown in a sentence, or what to change if nothing is.
function tellFirst() {
  const first = element("top");
  first.replaceChildren();
  if (shown.length) addSentence(shown[0], first);
  const remedy = shown.length ? null : size ? remedyOfFilters() : remedyOfNothing();
  element("none").classList.toggle("idle", !remedy);
  element("none-said").textContent = remedy?.said ?? "";
  element("remedy").hidden = !remedy?.act;
  element("remedy").textContent = remedy?.button ?? "";
  element("remedy").onclick = remedy?.act;
}

function remedyOfFilters() {
  const isSelected = passing.length > 0;
  return {
    said: isSelected ? "Nothing lies in what is selected." : `None of the ${listed(size)} passes the filters.`,
    button: isSelected ? "Clear selection" : "Clear filters",
    act: () => element(isSelected ? "unselect" : "clear-filters").click(),
  };
}

// Another page says what to ask for, where there is nothing to list.
let remedyOfNothing = () => null;
