
// ---- A run, read from its data. Nothing is simulated: each value was told of the turn at which it was written.

// How many of the ascending turns are at most this one.
function countUpTo(turns, turn) {
  let low = 0, high = turns.length;
  while (low < high) {
    const middle = low + high >> 1;
    if (turns[middle] <= turn) low = middle + 1;
    else high = middle;
  }
  return low;
}

// The values that something has held, each from a turn on. A state is looked up, so that back costs what forward does.
class History {
  constructor() {
    this.turns = [];
    this.values = [];
  }

  put(turn, value) {
    this.turns.push(turn);
    this.values.push(value);
  }

  at(turn) {
    const count = countUpTo(this.turns, turn);
    return count ? this.values[count - 1] : 0;
  }

  // The turn that wrote the value, 0 for the boot.
  since(turn) {
    const count = countUpTo(this.turns, turn);
    return count ? this.turns[count - 1] : 0;
  }

  changesAt(turn) { return turn > 0 && this.since(turn) === turn; }
}

const NEVER = new History();
const RAN = 0, ANNULLED = 'a', TRAPPED = 't', ERROR = 'e', EXITED = 'x', STOPPED = 'h';
const LOAD = 'l', STORE = 's', REFUSED = 'j';
// How many digits name the place, behind the letter of an item that has one.
const PLACE_DIGITS = {
  r: 3,
  m: 8,
  k: 4,
  s: 1,
  l: 1
};
const CWP_BITS = 31, SUPERVISOR_BIT = 7;

function historyIn(map, key) {
  let history = map.get(key);
  if (!history) map.set(key, history = new History());
  return history;
}

// What the listing of the machine's own code says of its words, by address, in the page's element.
function listedComments() {
  const comments = new Map();
  for (const line of byId('comments').textContent.split('\n')) {
    const space = line.indexOf(' ');
    if (space > 0) comments.set(fromHex(line.slice(0, space)), textOf(line.slice(space + 1)));
  }
  return comments;
}

class Run {
  // `comments` are those of the machine's own code.
  constructor(text, comments = new Map()) {
    this.comments = comments;
    const lines = text.split('\n');
    this.code = new Map();
    this.functions = [];
    this.blocks = [];
    this.source = [];
    this.reason = [];
    this.names = new Map();  // of functions and blocks, by address
    this.parts = [];         // where functions of C begin: address and name
    this.files = [];         // of C: name and lines
    this.linesOfC = [];      // where words of a line of C begin
    this.trapNames = new Map();
    this.faultTexts = new Map();
    this.registers = new Map();
    this.memory = new Map();
    this.entries = new Map();
    for (const name of ['psr', 'wim', 'y', 'trapBase', 'fault']) this[name] = new History();
    let at = lines[0] === '' ? 1 : 0;
    while (lines[at] !== 't') this.readHead(lines[at++]);
    this.readTurns(lines, at + 1);
  }

  readHead(line) {
    const fields = line.slice(1).split(' ');
    switch (line[0]) {
      case 'v':
        this.verdict = line.slice(1);
        this.accepted = this.verdict === 'accepted';
        break;
      case 'y': this.reason.push(textOf(fields[0])); break;
      case 'n':
        [this.windows, this.turns, this.limit] = fields.map(Number);
        this.ended = fields[3] === '1';
        break;
      case 'e': historyIn(this.entries, fromHex(fields[0])).put(0, fromHex(fields[1])); break;
      case 'd': this.readData(fromHex(fields[0]), fields[3] || ''); break;
      case 'f': this.readFunction(fields); break;
      case 'b': this.readBlock(fields); break;
      case 'w': this.readWord(fields); break;
      case 'k': this.trapNames.set(fromHex(fields[0]), textOf(fields[1])); break;
      case 'q': this.faultTexts.set(fromHex(fields[0]), fields.slice(1).join(' ')); break;
      case 's':
        this.source.push({address: fromHex(fields[0]), words: Number(fields[1]), text: textOf(fields[2] || '')});
        break;
      case 'i': this.names.set(fromHex(fields[0]), textOf(fields[1])); break;
      case 'j': this.parts.push({address: fromHex(fields[0]), name: textOf(fields[1])}); break;
      case 'o': this.files.push({name: textOf(fields[1]), lines: []}); break;
      case 'u': this.files[Number(fields[0])].lines.push(textOf(fields[1] || '')); break;
      case 'x': this.readLineOfC(fromHex(fields[0]), this.files[Number(fields[1])], Number(fields[2])); break;
      case 'z': this.endText = textOf(fields[0]); break;
      case 'r': this.readBoot(fields.map(fromHex)); break;
      case 'g': historyIn(this.registers, fromHex(fields[0])).put(0, fromHex(fields[1])); break;
    }
  }

  // Words of one line of C share what is known of it.
  readLineOfC(address, file, number) {
    file.known = file.known || new Map();
    if (!file.known.has(number))
      file.known.set(number, {file, number, own: 0, traps: 0, text: (file.lines[number - 1] || '').trim()});
    this.linesOfC.push({address, line: file.known.get(number)});
  }

  readBoot([pc, npc, psr, wim, trapBase, y]) {
    this.bootPc = pc;
    this.bootNpc = npc;
    this.psr.put(0, psr);
    this.wim.put(0, wim);
    this.trapBase.put(0, trapBase);
    this.y.put(0, y);
  }

  readData(address, digits) {
    for (let at = 0; at < digits.length; at += 8)
      historyIn(this.memory, address + at / 2).put(0, fromHex(digits.slice(at, at + 8).padEnd(8, '0')));
  }

  readFunction(fields) {
    const [number, address, framed, frame, room, budget, depth] = fields;
    this.functions.push({
      number: Number(number),
      address: fromHex(address),
      framed: framed === '1',
      frame,
      room,
      budget: Number(budget),
      depth: Number(depth),
      blocks: []
    });
  }

  readBlock(fields) {
    const of = this.functions[Number(fields[0])];
    const terms = fields.slice(3).map(term => term.split(':').map(Number));
    const block = {function: of, number: of.blocks.length, address: fromHex(fields[1]), fuel: Number(fields[2]), terms};
    of.blocks.push(block);
    this.blocks.push(block);
  }

  readWord(fields) {
    const address = fromHex(fields[0]), text = fields.slice(2).join(' ');
    this.code.set(address, {address, word: fromHex(fields[1]), text, comment: this.commentAt(address), runs: 0});
  }

  // What is said of a word of the machine's own code. A vector that isn't listed is as the one that is listed for all
  // others.
  commentAt(address) {
    const listed = this.comments.get(address);
    if (listed !== undefined || address >>> 12 !== TRAP_TABLE_PAGE) return listed || '';
    return this.comments.get(OTHER_VECTOR + (address & 15)) || '';
  }

  readTurns(lines, first) {
    const size = this.turns + 2;
    for (const name of ['pc', 'npc', 'eventValue', 'accessAddress']) this[name] = new Uint32Array(size);
    this.accessSize = new Uint8Array(size);
    this.fetched = new Uint8Array(size).fill(1);
    this.event = new Array(size).fill(RAN);
    this.accessKind = new Array(size).fill('');
    this.output = [];
    this.outputTurns = [];
    this.inputTurns = [];
    this.pc[1] = this.bootPc;
    this.npc[1] = this.bootNpc;
    for (let turn = 1; turn <= this.turns; turn++) {
      this.pc[turn + 1] = this.npc[turn];
      this.npc[turn + 1] = this.npc[turn] + 4;
      this.readTurn(lines[first + turn - 1], turn);
    }
  }

  readTurn(line, turn) {
    for (let at = 0; at < line.length;) {
      const letter = line[at++];
      let end = at;
      while (end < line.length && line.charCodeAt(end) < 0x47) end++;  // up to F: a small letter begins the next item
      const digits = PLACE_DIGITS[letter] || 0;
      const place = digits ? fromHex(line.slice(at, at + digits)) : 0;
      const value = end > at + digits ? fromHex(line.slice(at + digits, end)) : 0;
      this.readItem(letter, place, value, turn);
      at = end;
    }
  }

  readItem(letter, place, value, turn) {
    switch (letter) {
      case ANNULLED:
      case TRAPPED:
      case ERROR:
      case EXITED:
      case STOPPED:
        this.event[turn] = letter;
        this.eventValue[turn] = value;
        if (letter === ANNULLED) this.fetched[turn] = 0;
        if (letter === TRAPPED || letter === ERROR) this.readTrap(letter, value, turn);
        break;
      case 'n': this.fetched[turn] = 0; break;
      case 'p': this.pc[turn + 1] = value; break;
      case 'c': this.npc[turn + 1] = value; break;
      case 'r': historyIn(this.registers, place).put(turn, value); break;
      case 'm': historyIn(this.memory, place).put(turn, value); break;
      case 'k': historyIn(this.entries, place).put(turn, value); break;
      case 'q': this.psr.put(turn, value); break;
      case 'w': this.wim.put(turn, value); break;
      case 'y': this.y.put(turn, value); break;
      case 'f': this.fault.put(turn, value); break;
      case LOAD:
      case STORE:
      case REFUSED:
        this.accessKind[turn] = letter;
        this.accessSize[turn] = place;
        this.accessAddress[turn] = value;
        break;
      case 'o':
        this.output.push(value);
        this.outputTurns.push(turn);
        break;
      case 'u': this.inputTurns.push(turn); break;
    }
  }

  // A trap writes its type to TBR, and leads to its vector; error mode leads nowhere.
  readTrap(letter, type, turn) {
    const vector = (this.trapBase.at(turn) & ~0xFF0 | type << 4) >>> 0;
    if (vector !== this.trapBase.at(turn)) this.trapBase.put(turn, vector);
    if (letter === ERROR) return;
    this.pc[turn + 1] = vector;
    this.npc[turn + 1] = vector + 4;
  }

  // The state behind a turn.
  window(turn) { return this.psr.at(turn) & CWP_BITS; }
  isSupervisor(turn) { return (this.psr.at(turn) >>> SUPERVISOR_BIT & 1) === 1; }
  // Whether a turn is the program's own.
  isUserAt(turn) { return !this.isSupervisor(turn - 1); }
  memoryWord(address) { return this.memory.get(address) || NEVER; }
  entry(place) { return this.entries.get(place) || NEVER; }

  // The register of a window: 8 globals, then 16 of each window; the ins of one are the outs of the window above it.
  register(number, window) {
    const place =
      number < 24 ? (number < 8 ? number : 16 * window + number) : 16 * ((window + 1) % this.windows) + number - 16;
    return (number && this.registers.get(place)) || NEVER;
  }

  // Whether the turn's instruction did what it says: it ran, or it ended the run.
  didRun(turn) { return this.event[turn] === RAN || this.event[turn] === EXITED || this.event[turn] === STOPPED; }

  trapName(type) {
    const service = {0x80: ' (exit)', 0x81: ' (get)', 0x82: ' (put)'}[type] || '';
    return (this.trapNames.get(type) || '') + service;
  }

  putsOutAt(turn) {
    const count = countUpTo(this.outputTurns, turn);
    return count > 0 && this.outputTurns[count - 1] === turn ? this.output[count - 1] : -1;
  }

  getsAt(turn) {
    const count = countUpTo(this.inputTurns, turn);
    return count > 0 && this.inputTurns[count - 1] === turn;
  }

  // The last of some things, by ascending addresses, that begins at an address of user code or before it.
  lastOf(things, address) {
    if (address >= USER_CODE_END) return null;
    let low = 0, high = things.length;
    while (low < high) {
      const middle = low + high >> 1;
      if (things[middle].address <= address) low = middle + 1;
      else high = middle;
    }
    return low ? things[low - 1] : null;
  }

  // The line of C that a word comes from, and the name of the function of C; null and nothing where that isn't known.
  lineAt(address) {
    const found = this.lastOf(this.linesOfC, address);
    return found && found.line;
  }
  partAt(address) {
    const found = this.lastOf(this.parts, address);
    return found ? found.name : '';
  }

  // The block that an address of user code lies in.
  blockOf(address) {
    if (address >= USER_CODE_END || !this.blocks.length) return null;
    if (!this.blockStarts) this.blockStarts = this.blocks.map(block => block.address);
    const count = countUpTo(this.blockStarts, address);
    return count ? this.blocks[count - 1] : null;
  }
}

const USER_CODE_END = 0x80000, TRAP_TABLE_PAGE = 0xF0000, HANDLERS_PAGE = 0xF0001, UNDERFLOW = 0xF0001080;
const OTHER_VECTOR = 0xF0000020;
const functionName = (run, of) => run.names.get(of.address) || run.partAt(of.address) || 'f' + of.number;
const blockName = (run, block) => run.names.get(block.address) ||
  (block.number ? 'f' + block.function.number + '_b' + block.number : functionName(run, block.function));
const lineName = line => line.file.name.replace(/.*\//, '') + ':' + line.number;
const registerName = number => number === 14 ? '%sp' :
  number === 30                              ? '%fp' :
                                               '%' +
    'goli'[number >> 3] + (number & 7);

// The name of a place, as `inspect trace` has it; with a source, or a map, by the names that these have.
function placeName(run, address) {
  if (address >>> 12 === TRAP_TABLE_PAGE) return 'vector ' + hex(address >>> 4 & 255, 2) + '+' + hex(address & 15, 1);
  if (address >>> 12 === HANDLERS_PAGE)
    return address < UNDERFLOW ? 'overflow+' + hex(address & 0xFFF, 1) :
                                 'underflow+' + hex((address & 0xFFF) - 0x80, 1);
  const block = run.blockOf(address), line = run.lineAt(address);
  if (!block) return '-';
  const name = functionName(run, block.function), part = line ? run.partAt(address) : '';
  return name + '+' + hex(address - block.function.address, 1) +
    (line ? ' \u00B7 ' + (part === name ? '' : part + ' ') + lineName(line) : '');
}

// The operation of an arithmetic word (op3), -1 of another; SAVE and RESTORE among them.
const arithmetic = word => word >>> 30 === 2 ? word >>> 19 & 63 : -1;
const SAVE = 0x3C, RESTORE = 0x3D, JMPL = 0x38, RETT = 0x39;
const isBranch = word => word >>> 30 === 0 && (word >>> 22 & 7) === 2;
const isTransfer = word =>
  word >>> 30 === 1 || isBranch(word) || arithmetic(word) === JMPL || arithmetic(word) === RETT;
// How far a branch or a call goes, in bytes; 0 of another word.
const distance = word => word >>> 30 === 1 ? word << 2 : isBranch(word) ? word << 10 >> 8 : 0;

// Whether a transfer goes to its target, by the condition codes before it: of the sixteen conditions of a branch the
// upper eight are the opposite of the lower ones.
function isTaken(word, psr) {
  if (!isBranch(word)) return true;
  const [n, z, v, c] = [23, 22, 21, 20].map(bit => psr >>> bit & 1), condition = word >>> 25 & 15;
  const lower = [0, z, z | n ^ v, n ^ v, c | z, c, n, v][condition & 7];
  return lower !== condition >>> 3;
}
