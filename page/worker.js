"use strict";
// Runs the miner, which is a program for a command line. This worker is its system: each question has a fresh
// memory, the words and files that were sent with it, and two streams that are sent back.
const OUTPUT = 1;
const UNREADABLE = 4;
const OUT_OF_MEMORY = 6;
const TRAPPED = 134;
const utf8 = new TextEncoder();
let miner = null;

// How the program ends itself.
class Ended {
  constructor(status) {
    this.status = status;
  }
}

class Files {
  constructor(input, sets) {
    this.named = new Map(sets ? [["sets", sets]] : []);
    this.opened = new Map([[0, { bytes: input, at: 0 }]]);
  }

  open(name) {
    if (!this.named.has(name)) return -1;
    // The numbers below 3 are those of the input and of the streams.
    const number = this.opened.size + 2;
    this.opened.set(number, { bytes: this.named.get(name), at: 0 });
    return number;
  }

  // The next bytes of a file, at most so many.
  next(number, most) {
    const file = this.opened.get(number);
    if (!file) return null;
    const found = file.bytes.subarray(file.at, file.at + most);
    file.at += found.length;
    return found;
  }
}

function joined(parts) {
  const whole = new Uint8Array(parts.reduce((sum, part) => sum + part.length, 0));
  let at = 0;
  for (const part of parts) {
    whole.set(part, at);
    at += part.length;
  }
  return whole;
}

// What the program asks of its system: page/system.c says what each answers.
function systemOf(words, files, streams, memory) {
  const bytes = (at, count) => new Uint8Array(memory().buffer, Number(at), Number(count));
  return {
    word(number, to, room) {
      if (number >= words.length) return -1n;
      const word = words[Number(number)];
      const fits = word.subarray(0, Number(room));
      bytes(to, fits.length).set(fits);
      return BigInt(word.length);
    },
    open: (path, length) => files.open(new TextDecoder().decode(bytes(path, length))),
    read(file, to, room) {
      const found = files.next(file, Number(room));
      if (!found) return -1n;
      bytes(to, found.length).set(found);
      return BigInt(found.length);
    },
    write(stream, from, count) {
      streams[stream === OUTPUT ? 0 : 1].push(bytes(from, count).slice());
      return 1;
    },
    // The page's own source of random numbers gives at most 65536 bytes at once, and the program asks for at most 256.
    random(to, count) {
      crypto.getRandomValues(bytes(to, count));
    },
    exit(status) {
      throw new Ended(status);
    },
  };
}

// A file comes as what it is, so that its bytes are here alone.
function bytesOf(input) {
  return new Uint8Array(input instanceof Blob ? new FileReaderSync().readAsArrayBuffer(input) : input);
}

// The exit status of a run, and what is to be said of one that was cut off: then the report is nothing.
function statusOf(run) {
  try {
    return { status: run() };
  } catch (error) {
    if (error instanceof Ended) return { status: error.status };
    if (error instanceof DOMException) return { status: UNREADABLE, cut: "The file can't be read. If it was changed or moved, open it again.\n" };
    // The memory of this page can be out where the program can't see it: that of its calls, or of the report.
    if (error instanceof RangeError) return { status: OUT_OF_MEMORY, cut: "basket: out of memory\n" };
    return { status: TRAPPED, cut: `basket: the program was stopped: ${error.message}\n` };
  }
}

function answerTo({ id, words, input, sets, listing }) {
  const streams = [[], []];
  const given = ["basket", ...words].map((word) => utf8.encode(word));
  const begun = performance.now();
  let memory = null;
  const run = statusOf(() => {
    const files = new Files(bytesOf(input), sets);
    const page = systemOf(given, files, streams, () => memory);
    const { exports } = new WebAssembly.Instance(miner, { page });
    memory = exports.memory;
    return exports.run();
  });
  const milliseconds = performance.now() - begun;
  let [report, said, records] = [new Uint8Array(0), new Uint8Array(0), {}];
  const { status, cut } = statusOf(() => {
    if (!run.cut) [report, said] = streams.map(joined);
    if (listing) records = listedOf(report, listing);
    return run.status;
  });
  const explanation = run.cut ?? cut ?? new TextDecoder().decode(said);
  return { id, status, report, ...records, explanation, milliseconds, memory: memory ? memory.buffer.byteLength : 0 };
}

// Whether the module can be run here: a browser may lack memory of 64 bits.
function readiness(module) {
  miner = module;
  try {
    const { status, explanation } = answerTo({ words: ["--version"], input: [], sets: null });
    return status === 0 ? { ready: true } : { ready: false, why: explanation };
  } catch (error) {
    return { ready: false, why: error.message };
  }
}

onmessage = ({ data }) => {
  if (data.module) {
    postMessage(readiness(data.module));
    return;
  }
  if (data.workbook) {
    workbookAnswer(data).then(postMessage);
    return;
  }
  if (data.chance) {
    postMessage({ id: data.id, ...chanceOf(data.chance) });
    return;
  }
  const answer = answerTo(data);
  postMessage(answer, [...new Set([answer.report, answer.listed ?? answer.report].map(({ buffer }) => buffer))]);
};
