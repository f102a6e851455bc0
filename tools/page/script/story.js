
// ---- What follows from a run: which turns are whose, frames and where their windows are stored, and a turn in words.
const OVERFLOW_TRAP = 5, UNDERFLOW_TRAP = 6, FIRST_SERVICE = 0x80, LAST_SERVICE = 0x82;
const OF_USER = 0, OF_OVERFLOW = 1, OF_UNDERFLOW = 2, OF_SERVICE = 3, OF_OTHER = 4, OF_ANNULLED = 5;
// The last store of the overflow handler and the last load of the underflow handler, at %sp + 56: a window is stored,
// or loaded.
const LAST_STORE = 0xF000103C, LAST_LOAD = 0xF00010BC, LAST_PAIR = 56;

function kindOfTrap(type) {
  if (type === OVERFLOW_TRAP) return OF_OVERFLOW;
  if (type === UNDERFLOW_TRAP) return OF_UNDERFLOW;
  return type >= FIRST_SERVICE && type <= LAST_SERVICE ? OF_SERVICE : OF_OTHER;
}

class Story {
  constructor(run) {
    this.run = run;
    this.title = run.windows + ' windows';
    this.traps = [];
    this.kinds = new Uint8Array(run.turns + 2);
    this.plain = new Uint32Array(run.turns + 2);  // turns up to each, without those of window traps
    this.frames = new History();
    this.root = {parent: null, window: 0, block: null, stored: new History()};
    this.frames.put(0, this.root);
    this.frame = this.root;
    this.frameOf = new Map([[0, this.root]]);  // by window: the frame that was opened in it last
    for (const block of run.blocks) block.own = block.traps = 0;
    for (const {line} of run.linesOfC) line.own = line.traps = 0;
    this.kind = OF_USER;
    this.block = this.line = null;
    for (let turn = 1; turn <= run.turns; turn++) this.follow(turn);
  }

  follow(turn) {
    const {run} = this, pc = run.pc[turn], listed = run.fetched[turn] ? run.code.get(pc) : null;
    const supervisor = run.isSupervisor(turn - 1);
    if (listed) listed.runs++;
    if (!supervisor) {
      this.block = run.blockOf(pc) || this.block;
      this.line = run.lineAt(pc) || this.line;
      this.kind = OF_USER;
    }
    this.kinds[turn] = this.kindOf(turn, supervisor);
    const windowTrap = this.kinds[turn] === OF_OVERFLOW || this.kinds[turn] === OF_UNDERFLOW;
    this.plain[turn] = this.plain[turn - 1] + (windowTrap ? 0 : 1);
    for (const place of [this.block, this.line])
      if (place) place[supervisor || windowTrap ? 'traps' : 'own']++;
    if (run.didRun(turn)) this.followFrames(turn, pc, listed && !supervisor ? arithmetic(listed.word) : -1);
  }

  kindOf(turn, supervisor) {
    const {run} = this;
    if (run.event[turn] === TRAPPED) {
      this.traps.push(turn);
      this.kind = kindOfTrap(run.eventValue[turn]);
      return this.kind;
    }
    if (supervisor) return this.kind;
    return run.event[turn] === ANNULLED ? OF_ANNULLED : OF_USER;
  }

  followFrames(turn, pc, operation) {
    const {run} = this;
    if (operation === SAVE) {
      this.frame = {parent: this.frame, window: run.window(turn), block: run.blockOf(pc), stored: new History()};
      this.frameOf.set(this.frame.window, this.frame);
      this.frames.put(turn, this.frame);
    } else if (operation === RESTORE && this.frame.parent) {
      this.frame = this.frame.parent;
      this.frames.put(turn, this.frame);
    } else if (pc === LAST_STORE) {
      const stored = this.frameOf.get(run.window(turn));
      if (stored) stored.stored.put(turn, run.accessAddress[turn] - LAST_PAIR);
    } else if (pc === LAST_LOAD) {
      this.load(turn);
    }
  }

  // The newest frame whose window is stored is loaded into the window that the handler is in.
  load(turn) {
    let frame = this.frame;
    while (frame && !frame.stored.at(turn)) frame = frame.parent;
    if (!frame) return;
    frame.stored.put(turn, 0);
    frame.window = this.run.window(turn);
    this.frameOf.set(frame.window, frame);
  }

  // The frames open behind a turn, the newest first.
  openFrames(turn) {
    const open = [];
    for (let frame = this.frames.at(turn); frame; frame = frame.parent) open.push(frame);
    return open;
  }

  nameOf(frame) {
    const {functions} = this.run;
    if (frame.block) return functionName(this.run, frame.block.function);
    return !frame.parent && functions.length && !functions[0].framed ? functionName(this.run, functions[0]) : 'start';
  }

  // The first turn behind which so many turns are made that aren't of window traps.
  turnOfPlain(count) {
    const turns = this.run.turns;
    let low = 0, high = turns;
    while (low < high) {
      const middle = low + high >> 1;
      if (this.plain[middle] >= count) high = middle;
      else low = middle + 1;
    }
    return low;
  }
}

function trapSentence(run, turn) {
  const type = run.eventValue[turn], window = run.window(turn - 1), above = (window + 1) % run.windows;
  const below = (window + run.windows - 1) % run.windows;
  const entering = {
    [OVERFLOW_TRAP]: ': SAVE would enter window ' + below + ', which WIM marks',
    [UNDERFLOW_TRAP]: ': RESTORE would enter window ' + above + ', which WIM marks',
  };
  const cause = entering[type] || '';
  return 'TRAP ' + hex(type, 2) + ' ' + run.trapName(type) + cause + ' \u2192 vector ' + hex(run.pc[turn + 1]) +
    ' in window ' + run.window(turn) + ', %l1 and %l2 keep PC and nPC';
}

function transferSentence(run, turn, word) {
  const annuls = turn < run.turns && run.event[turn + 1] === ANNULLED;
  if (!isTaken(word, run.psr.at(turn - 1))) return 'not taken' + (annuls ? ': its slot is annulled' : '');
  return 'transfer: next its slot ' + hex(run.pc[turn + 1]) + ', then ' + hex(run.npc[turn + 1]) +
    (annuls ? '; the slot is annulled' : '');
}

// What a word of the handlers does: the listing's comment, or where its registers go.
function handlerSentence(run, turn, listed) {
  if (listed.comment) return listed.comment;
  const pair = {[STORE]: ['stores', ' at '], [LOAD]: ['loads', ' from ']}[run.accessKind[turn]];
  if (pair && run.accessSize[turn] === 8)
    return pair[0] + ' two registers of window ' + run.window(turn) + pair[1] + hex(run.accessAddress[turn]);
  return listed.text === 'sethi 0,%g0' ? 'waits, as the manual asks behind a write of WIM' : '';
}

function ranSentence(run, turn) {
  const listed = run.code.get(run.pc[turn]), operation = listed ? arithmetic(listed.word) : -1;
  const before = run.window(turn - 1), after = run.window(turn);
  if (!listed) return '';
  if (run.isSupervisor(turn - 1)) {
    const said = handlerSentence(run, turn, listed);
    if (said) return said;
  }
  if (isTransfer(listed.word)) return transferSentence(run, turn, listed.word);
  if (operation === SAVE)
    return 'SAVE: window ' + before + ' \u2192 ' + after + '; the outs of ' + before + ' are now the ins';
  if (operation === RESTORE) return 'RESTORE: window ' + before + ' \u2192 ' + after + '; the ins are the outs again';
  return '';
}

function eventSentence(run, turn) {
  switch (run.event[turn]) {
    case ANNULLED: return 'annulled: this slot isn\u2019t fetched, and costs a turn';
    case TRAPPED: return trapSentence(run, turn);
    case ERROR: return 'ERROR MODE by trap ' + hex(run.eventValue[turn], 2) + ' ' + run.trapName(run.eventValue[turn]);
    case EXITED: return 'EXIT' + (run.endText ? ': ' + run.endText : ' with the word ' + hex(run.eventValue[turn]));
    case STOPPED: return 'STOPPED: no handler serves this trap';
    default: return ranSentence(run, turn);
  }
}

function isSlot(run, turn) {
  const before = turn > 1 ? run.code.get(run.pc[turn - 1]) : null;
  return Boolean(before) && run.didRun(turn - 1) && run.fetched[turn - 1] === 1 && isTransfer(before.word) &&
    run.pc[turn] === run.pc[turn - 1] + 4 >>> 0;
}

// What happened at a turn, behind its place and its instruction.
function sentence(run, turn) {
  const parts = [eventSentence(run, turn)], byte = run.putsOutAt(turn);
  if (byte >= 0)
    parts.push('puts out ' + hex(byte, 2) + (byte > 32 && isGraphic(byte) ? ' ' + String.fromCharCode(byte) : ''));
  if (run.getsAt(turn)) parts.push('gets a byte');
  return (isSlot(run, turn) ? '[delay slot] ' : '') + parts.filter(part => part).join('; ');
}

// The place of a turn: number, window, mode, PC, word and name.
function heading(run, turn) {
  const listed = run.code.get(run.pc[turn]), word = run.fetched[turn] && listed ? hex(listed.word) : '--------';
  return [
    'turn ' + turn, 'window ' + run.window(turn - 1), run.isSupervisor(turn - 1) ? 'supervisor' : 'user',
    hex(run.pc[turn]) + ' ' + word + ' ' + placeName(run, run.pc[turn])
  ].join(' \u00B7 ') +
    ' \u00B7 ';
}

function instruction(run, turn) {
  const listed = run.code.get(run.pc[turn]);
  if (run.event[turn] === ANNULLED) return '';
  return !run.fetched[turn] ? '(not fetched)' : listed ? listed.text : '?';
}

// Tells a turn in an element, whose class says whose turn it is.
function tellTurn(where, run, turn, comment) {
  where.replaceChildren();
  where.classList.toggle('trap', turn > 0 && run.event[turn] === TRAPPED);
  where.classList.toggle('sup', turn > 0 && run.event[turn] !== TRAPPED && run.isSupervisor(turn - 1));
  if (!turn) {
    where.append('Loaded: nothing has run yet. Press \u2192 for the first turn, space to play.');
    return;
  }
  const told = sentence(run, turn);
  where.append(element('span', 'dim', heading(run, turn)), element('code', '', instruction(run, turn)));
  where.append((run.event[turn] === ANNULLED ? '' : ' \u00B7 ') + (told || 'ran'));
  if (comment) where.append(element('span', 'co', '  ' + comment));
  where.title = where.textContent;
}
