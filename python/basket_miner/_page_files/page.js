
// The page of rules that Python writes: its rules stand in it.
// Lets a page of many rules do something else, before its next step.
function pause({ both }) {
  return both.length > STEP ? new Promise((done) => setTimeout(done)) : undefined;
}

async function start() {
  const given = JSON.parse(element("data").textContent);
  await pause(given);
  take(given);
  await pause(given);
  element("summary").textContent = size ? `${listed(size)} of ${whole(data.total)} baskets` : "There is no rule.";
  takeState(linked());
  sort();
  head();
  startFilters();
  startTable();
  startSaving();
  startLink();
  await pause(given);
  startPicture();
  startPlot();
  const first = Number(linked().get("page")) || 1;
  update();
  if (first > 1) turnTo(first - 1);
  addEventListener("hashchange", () => {
    takeState(linked());
    sort();
    tellSort();
    makeAxes();
    update();
  });
}

start();
