
// ---- The proved module: its memory, which it asks for by three calls, and its answers.

const OK = 0, NO_IMAGE = 1, MEMORY = 3, ROOM = 7, ENDED = 8, WANTS = 9, FULL = 10, PAUSED = 11, SOURCE = 13;
const NO_PROGRAM = 16;
// The least block has 16 bytes, which a pointer is a multiple of; memory grows by a MiB at least.
const LEAST_BLOCK = 16, LEAST_GROWTH = 1 << 20, WASM_PAGE = 65536, MOST_BLOCK = 2 ** 30;
const FIRST_ROOM = 65536;

// A byte is a character of U+0000 to U+00FF, both ways. ASCII, as most texts are, goes the browser's own way, since a
// trace has megabytes.
function textOfBytes(bytes) {
  if (!bytes.some(it => it > 127)) return new TextDecoder().decode(bytes);
  let text = '';
  for (let at = 0; at < bytes.length; at += 8192) text += String.fromCharCode(...bytes.subarray(at, at + 8192));
  return text;
}

const digitsOfBytes = bytes => Array.from(bytes, byte => hex(byte, 2)).join('');
const bytesOfText = text => Uint8Array.from(text, it => it.charCodeAt(0) & 255);
const utf8 = text => new TextEncoder().encode(text);

// Blocks of 16 bytes times a power of two, from behind what the module itself holds. A freed one is kept for its size.
class Blocks {
  constructor(memory) {
    this.memory = memory;
    this.next = this.end = memory.buffer.byteLength;
    this.free = new Map();
    this.sizes = new Map();
  }

  static sizeOf(bytes) { return 2 ** Math.ceil(Math.log2(Math.max(LEAST_BLOCK, bytes))); }

  // The place of a block, or 0 where there is no room for it.
  take(bytes) {
    if (bytes > MOST_BLOCK) return 0;
    const size = Blocks.sizeOf(bytes), kept = this.free.get(size);
    const at = kept?.length ? kept.pop() : this.cut(size);
    if (at) this.sizes.set(at, size);
    return at;
  }

  cut(size) {
    const lacking = this.next + size - this.end;
    if (lacking > 0 && !this.grow(lacking)) return 0;
    this.next += size;
    return this.next - size;
  }

  grow(bytes) {
    const pages = Math.ceil(Math.max(bytes, LEAST_GROWTH) / WASM_PAGE);
    try {
      this.memory.grow(pages);
    } catch {
      return false;
    }
    this.end += WASM_PAGE * pages;
    return true;
  }

  drop(at) {
    const size = this.sizes.get(at);
    if (!size) throw new Error('a block is freed that there is not');
    this.sizes.delete(at);
    const kept = this.free.get(size);
    if (kept) kept.push(at);
    else this.free.set(size, [at]);
  }

  // A block of another size that begins with what this one began with: this one, where it has the room.
  again(at, kept, bytes) {
    if (Blocks.sizeOf(bytes) === this.sizes.get(at)) return at;
    const to = this.take(bytes);
    if (!to) return 0;
    new Uint8Array(this.memory.buffer).copyWithin(to, at, at + Math.min(kept, bytes));
    this.drop(at);
    return to;
  }
}

class Module {
  // The module of some bytes.
  static async of(bytes) {
    const made = new Module();
    made.compiled = await WebAssembly.compile(bytes);
    await made.begin();
    return made;
  }

  // Begins anew, with memory of its own.
  async begin() {
    const given = {
      rattle_alloc: (to, bytes) => this.answer(to, this.blocks.take(Number(bytes))),
      rattle_realloc: (to, at, kept, bytes) =>
        this.answer(to, this.blocks.again(Number(at), Number(kept), Number(bytes))),
      rattle_dealloc: at => this.blocks.drop(Number(at)),
    };
    const imports = {};
    for (const {module, name} of WebAssembly.Module.imports(this.compiled)) {
      imports[module] ??= {};
      imports[module][name] = given[name];
    }
    this.calls = (await WebAssembly.instantiate(this.compiled, imports)).exports;
    this.memory = this.calls.memory;
    this.blocks = new Blocks(this.memory);
  }

  // A block, or that there is none, where a call of the module asked for it: a `geyserpan_block`.
  answer(to, at) {
    const view = this.view(to, 16);
    view.setUint8(0, at ? 1 : 0);
    view.setBigUint64(8, BigInt(at || LEAST_BLOCK), true);
  }

  view(at, length) { return new DataView(this.memory.buffer, Number(at), length); }

  bytesAt(at, length) { return new Uint8Array(this.memory.buffer, Number(at), length).slice(); }

  // Does something with blocks that hold these bytes, or have so much room, and lets them go.
  with(parts, act) {
    const places = [];
    try {
      for (const part of parts) {
        const isRoom = typeof part === 'number', at = this.blocks.take(isRoom ? part : part.length);
        if (!at) throw new Error('there is not so much memory');
        places.push(at);
        if (!isRoom) new Uint8Array(this.memory.buffer, at, part.length).set(part);
      }
      return act(...places.map(BigInt));
    } finally {
      places.forEach(at => this.blocks.drop(at));
    }
  }

  // What a call writes to the front of its room: the status, and the bytes where it is OK. `given` are the bytes and
  // the numbers that stand before the room. Where the room is too small it is called again with more.
  tell(name, given, room = FIRST_ROOM) {
    const bytes = given.filter(it => it instanceof Uint8Array);
    const told = this.with([...bytes, room, 8], (...places) => {
      const [to, needed] = places.slice(-2), words = [];
      let part = 0;
      for (const it of given) words.push(...it instanceof Uint8Array ? [places[part++], BigInt(it.length)] : [it]);
      const status = this.calls[name](...words, to, BigInt(room), needed);
      const length = status === OK || status === ROOM ? Number(this.view(needed, 8).getBigUint64(0, true)) : 0;
      return {status, length, bytes: status === OK ? this.bytesAt(to, length) : null};
    });
    return told.status === ROOM && told.length > room ? this.tell(name, given, told.length) : told;
  }

  // The text that a call gives, or null where its status isn't OK.
  text(name, given, room) {
    const {bytes} = this.tell(name, given, room);
    return bytes && textOfBytes(bytes);
  }
}
