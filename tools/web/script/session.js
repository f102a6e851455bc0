
// ---- A run in pieces of an accepted image, by the calls of include/geyserpan.h.

const ROOM_BYTES = 65536, MOST_TURNS = 1n << 40n, ALL_SERVICES = 7;
// The bytes of each struct that a session keeps.
const STRUCTS = {image: 8, run: 8, terms: 32, why: 16, done: 32, facts: 48, room: ROOM_BYTES};
const ON_ENGINE = {fresh: 'geyserpan_engine_new', begin: 'geyserpan_engine_begin', step: 'geyserpan_engine_step',
  free: 'geyserpan_engine_free'};
const ON_BOARD = {fresh: 'geyserpan_run_new', begin: 'geyserpan_begin', step: 'geyserpan_step',
  free: 'geyserpan_run_free'};

class Session {
  // A run of an image on so many windows, on the engine or, of 8 windows, on a board. Its status is OK, or tells why
  // there is none.
  constructor(module, image, windows, kind = ON_ENGINE) {
    this.module = module;
    this.kind = kind;
    this.places = {};
    for (const name of Object.keys(STRUCTS)) this.places[name] = module.blocks.take(STRUCTS[name]);
    const {calls} = module;
    calls.geyserpan_image_new(this.at('image'));
    calls[kind.fresh](this.at('run'));
    this.status = this.open(image, windows);
    if (this.status !== OK) return;
    calls.geyserpan_facts_of(this.at('image'), this.at('facts'));
    this.budget = Number(this.view('facts').getBigUint64(0, true));
    this.status = calls[kind.begin](this.at('run'), this.at('image'));
  }

  at(name) { return BigInt(this.places[name]); }

  view(name) { return this.module.view(this.places[name], STRUCTS[name]); }

  open(image, windows) {
    const terms = this.view('terms'), {module} = this;
    terms.setBigUint64(0, MOST_TURNS, true);
    terms.setBigUint64(8, MOST_TURNS, true);
    terms.setUint32(16, ALL_SERVICES, true);
    terms.setUint32(20, windows, true);
    return module.with([image], bytes => module.calls.geyserpan_open(this.at('image'), bytes, BigInt(image.length),
      this.at('terms'), this.at('why')));
  }

  // Goes on for so many turns with a piece of input, which is the last one or not.
  step(turns, input, isLast, room = ROOM_BYTES) {
    const {module} = this;
    const status = module.with([input], bytes => module.calls[this.kind.step](this.at('run'), turns, bytes,
      BigInt(input.length), isLast ? 1 : 0, this.at('room'), BigInt(room), this.at('done')));
    const done = this.view('done'), number = at => Number(done.getBigUint64(at, true));
    return {
      status,
      turns: number(0),
      read: number(8),
      exit: done.getUint32(24, true),
      bytes: module.bytesAt(this.places.room, number(16))
    };
  }

  // A handle is one pointer, which is handed over as it is.
  free() {
    const {calls, blocks} = this.module;
    calls[this.kind.free](this.view('run').getBigUint64(0, true));
    calls.geyserpan_image_free(this.view('image').getBigUint64(0, true));
    for (const at of Object.values(this.places)) blocks.drop(at);
  }
}
