// Tries heap.c by itself, with random calls: blocks are aligned, apart and inside the memory, they keep what is in them,
// and a call for which there is no memory changes nothing. Usage: node heap.mjs MODULE, which exports the three calls.
import fs from "fs";

const heap = new WebAssembly.Instance(new WebAssembly.Module(fs.readFileSync(process.argv[2])), {}).exports;
const ROOM = 65536, ROUNDS = 3000, CALLS = 40, WRITTEN = 2000;
// How large the blocks of a round may be; the last need more memory than there is. Of a block, WRITTEN bytes are looked at.
const SIZES = [100, 3000, 200000, 20000000, 2000000000];
const base = Number(heap.fmtcanon_room(BigInt(ROOM)));

let state = 7n;
function random(below) {
  state = (state * 6364136223846793005n + 1442695040888963407n) & (2n ** 64n - 1n);
  return Number((state >> 33n) % BigInt(below));
}

const counts = { calls: 0, refused: 0, moved: 0, largest: 0 };
let blocks = [];

const bytesOf = (block) => new Uint8Array(heap.memory.buffer, block.at, Math.min(block.size, WRITTEN));
const stop = (what) => {
  throw new Error(`heap: ${what} after ${counts.calls} calls`);
};

function write(block) {
  bytesOf(block).forEach((_, at, bytes) => (bytes[at] = (block.mark + at) & 255));
  return block;
}

function check(block, kept = block.size) {
  const bytes = bytesOf(block), wrong = bytes.subarray(0, kept).findIndex((it, at) => it !== ((block.mark + at) & 255));
  if (wrong >= 0) stop("a block has other bytes");
}

function checkPlace(block) {
  if (block.at % 16) stop("a block isn't aligned");
  if (block.at < base + ROOM || block.at + block.size > heap.memory.buffer.byteLength) stop("a block is outside");
  const overlaps = (it) => it !== block && block.at < it.at + it.size && it.at < block.at + block.size;
  if (blocks.some(overlaps)) stop("two blocks overlap");
}

// What the two calls return, at the front of the room: whether there was memory, and the block.
function tried() {
  const view = new DataView(heap.memory.buffer), at = Number(view.getBigUint64(base + 8, true));
  if (!at) stop("a pointer is null");
  return view.getUint8(base) ? at : null;
}

function allocate(most) {
  const block = { size: random(most), mark: random(256) };
  heap.rattle_alloc(BigInt(base), BigInt(block.size), BigInt(1 << random(5)));
  block.at = tried();
  if (block.at === null) return counts.refused++;
  blocks.push(write(block));
  return checkPlace(block);
}

function reallocate(block, most) {
  const size = random(most), kept = random(Math.min(size, block.size) + 1), from = block.at;
  heap.rattle_realloc(BigInt(base), BigInt(from), BigInt(kept), BigInt(size), 1n);
  const at = tried();
  if (at === null) return counts.refused++;
  counts.moved += at !== from;
  Object.assign(block, { at, size });
  check(block, kept);
  write(block);
  return checkPlace(block);
}

function free(index) {
  const [block] = blocks.splice(index, 1);
  check(block);
  heap.rattle_dealloc(BigInt(block.at));
}

for (let round = 0; round < ROUNDS; round++) {
  const most = SIZES[random(SIZES.length)];
  for (let call = 0; call < CALLS; call++, counts.calls++) {
    const index = random(2) ? blocks.length - 1 : random(blocks.length || 1), what = random(3);
    if (what === 0 || !blocks.length) allocate(most);
    else if (what === 1) free(index);
    else reallocate(blocks[index], most);
  }
  while (blocks.length) free(random(blocks.length));
  counts.largest = Math.max(counts.largest, heap.memory.buffer.byteLength);
}
for (const size of [2n ** 32n, 2n ** 33n, 2n ** 40n, 2n ** 64n - 1n]) {
  if (heap.fmtcanon_room(size) !== 0n) stop("there is room for 4 GB");
}
console.log(JSON.stringify(counts));
