# mypy: allow-untyped-calls
"""The heap under the program in a page, alone: page/heap.c."""

import base64
import os
import tempfile
from pathlib import Path

import pytest
from selenium import webdriver

import page as maker

ROOT = Path(__file__).parents[2]
EXPORTS = ("malloc", "realloc", "free")
# Blocks come and go in an order that a seed gives, until the memory is out again and again. Each keeps its bytes,
# and at the end, when all are free, they are one block.
CHECK = """
const [text, done] = arguments;
let seed = 86n;
const below = (most) => {
  seed = (seed * 6364136223846793005n + 1442695040888963407n) & 0xffffffffffffffffn;
  return Number((seed >> 33n) % BigInt(most));
};
const size = () => [below(40), below(400), below(5000), below(300000)][below(4)];
const page = new Proxy({}, { get: () => () => { throw new Error("no call of the page is due"); } });
const bytes = Uint8Array.from(atob(text), (character) => character.charCodeAt(0));
const blocks = [];
let refused = 0, moves = 0;
const must = (holds, what) => { if (!holds) throw new Error(what); };
WebAssembly.instantiate(bytes, { page }).then(({ instance: { exports } }) => {
  const view = (block) => new Uint8Array(exports.memory.buffer, Number(block.at), block.size);
  const isKept = (block, size) => {
    for (const byte of view({ ...block, size })) if (byte !== block.mark) return false;
    return true;
  };
  const fill = (block) => view(block).fill(block.mark);
  const give = () => {
    const block = { size: size(), mark: below(256) };
    block.at = exports.malloc(BigInt(block.size));
    if (block.at === 0n) { refused++; return; }
    must(block.at % 16n === 0n, "a block is not aligned");
    fill(block);
    blocks.push(block);
  };
  const resize = (block) => {
    const now = size();
    const at = exports.realloc(block.at, BigInt(now));
    if (at === 0n) { refused++; must(isKept(block, block.size), "a refused block lost bytes"); return; }
    moves += at !== block.at;
    must(isKept({ ...block, at }, Math.min(now, block.size)), "a block lost bytes as it was resized");
    Object.assign(block, { at, size: now });
    fill(block);
  };
  const release = (number) => {
    const [block] = blocks.splice(number, 1);
    must(isKept(block, block.size), "a block lost bytes");
    exports.free(block.at);
  };
  // They come more often than they go, and then the other way round.
  for (let step = 0; step < 30000; step++) {
    const isFuller = step % 10000 < 5000;
    const chance = below(10);
    if (blocks.length === 0 || chance < (isFuller ? 5 : 2)) give();
    else if (chance < 7) resize(blocks[below(blocks.length)]);
    else release(below(blocks.length));
  }
  const most = exports.memory.buffer.byteLength;
  while (blocks.length > 0) release(blocks.length - 1);
  const all = exports.malloc(BigInt(most - (1 << 21)));
  must(all !== 0n, "free blocks are not one block");
  must(exports.memory.buffer.byteLength === most, "the memory grew");
  must(exports.malloc(1n << 60n) === 0n && exports.realloc(all, 1n << 60n) === 0n, "too much was given");
  done({ refused, moves });
}).catch((error) => done({ error: String(error) }));
"""


@pytest.fixture(scope="module")
def heap() -> bytes:
    """A module of the page's C files, with the calls of the heap, and at most 32 MiB of memory."""
    before = os.getcwd()
    os.chdir(ROOT)
    try:
        with tempfile.TemporaryDirectory(prefix="basket-") as folder:
            source, made = Path(folder, "program.c"), Path(folder, "program.o")
            source.write_text("int program(void) { return 0; }\n", encoding="ascii")
            maker.clang(*maker.TARGET, *maker.OF_C, source, "-o", made)
            exports = [f"--export={name}" for name in EXPORTS]
            return maker.linked(made, *exports, f"--max-memory={1 << 25}")
    finally:
        os.chdir(before)


def test_blocks_keep_their_bytes_until_they_are_freed(
    browser: webdriver.Chrome, heap: bytes
) -> None:
    browser.get("about:blank")
    browser.set_script_timeout(600)
    found = browser.execute_async_script(CHECK, base64.b64encode(heap).decode())
    assert found["refused"] > 100 and found["moves"] > 100, found
