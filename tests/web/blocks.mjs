// usage: node blocks.mjs PAGE: the allocator that the page gives its modules, by itself: no block lies over another
// one, each begins at a multiple of 16, a grown one begins as it was, and what is freed is used again.
import {Tally, pageOf} from './page.mjs';

const page = pageOf(process.argv[2]), tally = new Tally(), ROUNDS = 20_000, MOST = 1 << 14;
const memory = new WebAssembly.Memory({initial: 2, maximum: 256}), blocks = new page.Blocks(memory), held = new Map();
let seed = 1;

// Numbers below a bound, the same in each run.
function below(bound) {
  seed = seed * 48271 % 2147483647;
  return seed % bound;
}

const view = () => new Uint8Array(memory.buffer);

function fill(at, length, byte) {
  view().fill(byte, at, at + length);
  held.set(at, {length, byte});
}

function isWhole(at) {
  const {length, byte} = held.get(at);
  return view().subarray(at, at + length).every(it => it === byte);
}

function anyHeld() { return [...held.keys()][below(held.size)]; }

function take() {
  const length = below(MOST), at = blocks.take(length);
  tally.check('a block lies in what the module holds', at === 0 || at >= 2 * 65536);
  tally.check('a block begins at a multiple of 16', at % 16 === 0);
  if (at) fill(at, length, below(256));
}

function again() {
  const at = anyHeld(), {length, byte} = held.get(at), wanted = below(MOST), kept = Math.min(length, wanted);
  const to = blocks.again(at, kept, wanted);
  if (!to) return;
  held.delete(at);
  tally.check('a grown block begins as it was', view().subarray(to, to + kept).every(it => it === byte));
  fill(to, wanted, byte);
}

function drop() {
  const at = anyHeld();
  tally.check('a block is whole when it is freed', isWhole(at));
  held.delete(at);
  blocks.drop(at);
}

for (let round = 0; round < ROUNDS; round++) {
  const act = below(5);
  if (act < 2 || !held.size) take();
  else if (act === 2) again();
  else drop();
}
for (const at of held.keys()) tally.check('a block is whole in the end', isWhole(at));
for (const at of [...held.keys()]) {
  held.delete(at);
  blocks.drop(at);
}
const size = memory.buffer.byteLength;
for (let round = 0; round < ROUNDS; round++) blocks.drop(blocks.take(1000));
tally.same('memory after takes and drops', memory.buffer.byteLength, size);
tally.same('a block beyond the memory', blocks.take(2 ** 29), 0);
tally.same('a block beyond all', blocks.take(2 ** 40), 0);
let refused = 0;
try {
  blocks.drop(12345 * 16);
} catch {
  refused = 1;
}
tally.same('a block that there is not', refused, 1);
tally.end();
