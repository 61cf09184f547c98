
// The miner: a worker that answers one question at a time. A newer turn of the page ends the question of an older one.
const PATIENCE = 150; // Milliseconds that a question may hold up a newer turn.
// A memory with 64-bit addresses, and nothing else.
const WIDE_MEMORY = new Uint8Array([0, 97, 115, 109, 1, 0, 0, 0, 5, 3, 1, 4, 1]);
const ENDED = 134; // The status of a program that the page had to end.
const nothing = new Uint8Array(0);
let program = null; // The compiled module, once it is unpacked.
let worker = null;
let hasFailed = false; // Whether the worker did: then another is tried.
let running = null; // The question that the worker is at.
let turn = 0;
let asked = 0;

function lacking() {
  if (typeof WebAssembly !== "object" || !WebAssembly.validate(WIDE_MEMORY)) {
    return "This browser can't run the miner: it has no 64-bit memory for WebAssembly. Chrome, Edge and other browsers made of " +
      "Chromium have it from version 133 on, and Firefox from 134. Safari has none in any version that we know of.";
  }
  return typeof DecompressionStream === "function" ? "" : "This browser can't run the miner: it can't unpack it (DecompressionStream).";
}

async function unpacked(text) {
  const packed = Uint8Array.from(atob(text.trim()), (letter) => letter.charCodeAt(0));
  return (await unzipped(new Blob([packed]))).arrayBuffer();
}

// What is in a file that is packed, as a file.
function unzipped(blob) {
  return new Response(blob.stream().pipeThrough(new DecompressionStream("gzip"))).blob();
}

function startWorker() {
  const address = URL.createObjectURL(new Blob([element("worker").textContent], { type: "text/javascript" }));
  worker = new Worker(address);
  URL.revokeObjectURL(address);
  hasFailed = false;
  const own = worker;
  const settle = (answer) => {
    if (worker !== own || !running) return;
    const { resolve } = running;
    running = null;
    resolve(answer);
  };
  const fail = (why) => {
    hasFailed ||= worker === own;
    settle({ status: ENDED, report: nothing, explanation: `The miner failed: ${why}` });
  };
  worker.onmessage = ({ data: answer }) => {
    if (answer.ready === false) fail(answer.why);
    else if (answer.id === running?.id) settle(answer);
  };
  worker.onerror = worker.onmessageerror = (event) => fail(event.message || "it did not start");
  worker.postMessage({ module: program });
}

const ready = (async () => {
  if (lacking()) throw new Error(lacking());
  program = await WebAssembly.compile(await unpacked(element("module").textContent));
  startWorker();
})();

function endQuestion() {
  if (!running) return;
  const { resolve } = running;
  running = null;
  worker.terminate();
  startWorker();
  resolve(null);
}

// The answer to a question of a turn, or null if a newer turn came or the question was ended. It may have itemsets
// that are counted, and say what is listed of the report.
function ask(own, words, input, { sets = null, listing = null } = {}) {
  return askWorker(own, { words, input, sets, listing });
}

async function askWorker(own, question) {
  await ready;
  if (own !== turn) return null;
  if (running) {
    const held = running;
    const patience = held.begun + PATIENCE - performance.now();
    await Promise.race([held.done, new Promise((done) => setTimeout(done, patience))]);
    if (own !== turn) return null;
    if (running === held) endQuestion();
  }
  if (hasFailed) startWorker();
  const id = ++asked;
  let resolve;
  const done = new Promise((settle) => (resolve = settle));
  running = { id, resolve, done, begun: performance.now() };
  worker.postMessage({ id, ...question });
  const answer = await done;
  return own === turn ? answer : null;
}
