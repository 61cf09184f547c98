
// What the page says where the program says no more than that it can't, or finds nothing, and a button that helps.
const OUT_OF_MEMORY = 6;

// A lower minimum, which some item meets, or null if there is none.
function lowerLeast({ least }) {
  const below = (report.file.mined?.singles ?? []).filter((count) => count < least);
  const next = below.length ? below.reduce((most, count) => Math.max(most, count)) : Math.floor(least / 2);
  return next >= 1 && next < least ? next : null;
}

function asksForLeast(least, said) {
  return {
    said,
    button: `Ask for those in at least ${many(least, "basket")}`,
    act: () => {
      setLeast(least);
      askAnew();
      element("least").focus();
    },
  };
}

remedyOfNothing = () => {
  const { what, least, confidence } = report.question;
  if (what === "count") return { said: "There is no itemset to count: type one above." };
  if (what === "rules" && Number(confidence) > 0) {
    const lower = CONFIDENCES.find((other) => other < Number(confidence)) ?? 0;
    return {
      said: `No rule in at least ${many(least, "basket")} has a confidence of ${confidence}% or more.`,
      button: `Ask for a confidence of ${lower}%`,
      act: () => {
        element("confidence-least").value = lower;
        askAnew();
        element("confidence-least").focus();
      },
    };
  }
  const said = what === "rules" ? `No two items are together in ${many(least, "basket")} or more.` : `Nothing is in ${many(least, "basket")} or more.`;
  const lower = lowerLeast(report.question);
  return lower ? asksForLeast(lower, said) : { said };
};

// A fault of the program, as this page says it: without the program's name and its hints, which are on options.
function faultInWords({ status, explanation }) {
  if (status === OUT_OF_MEMORY) return "The memory that the browser gives this page is full. Raise the minimum, or open a smaller file.";
  const [first] = explanation.split("\nhint: ");
  const said = first.replace(/^basket: /, "").trim();
  const [, most] = said.match(/^more than (\d+) frequent itemsets/) ?? [];
  if (most) return `There are more than ${whole(Number(most))} itemsets. Raise the minimum.`;
  const [, ofSets, place, what] = said.match(/^(in the sets: )?((?:line|record) \d+): ([^]*)/) ?? [];
  return place ? `In ${place} of the ${ofSets ? "itemsets" : "file"}: ${what}.` : said;
}

// A fault for which a higher minimum helps has a button for it.
function tellFault(answer) {
  const { least } = questionOf();
  const higher = Math.min(Math.max(2 * least, 2), file.total);
  sayFault(faultInWords(answer));
  const isTooMuch = answer.isTooMuch || answer.status === OUT_OF_MEMORY || /^basket: more than/.test(answer.explanation);
  if (!isTooMuch || higher === least) return;
  const button = made("button", `Ask for those in at least ${many(higher, "basket")}`);
  button.type = "button";
  button.addEventListener("click", asksForLeast(higher).act);
  element("answered").append(" ", button);
}
