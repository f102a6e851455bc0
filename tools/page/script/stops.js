
// ---- Places to stop at and to search for: an address, a trap, a change of a register or of a word of memory, a text.
const REGISTER = /^%?(?:([goli])([0-7])|sp|fp)$/;
const STATE_REGISTERS = {
  y: 'y',
  psr: 'psr',
  wim: 'wim',
  tbr: 'trapBase'
};

function registerNumber(name) {
  const found = REGISTER.exec(name);
  if (!found) return -1;
  if (!found[1]) return name.endsWith('sp') ? 14 : 30;
  return 8 * 'goli'.indexOf(found[1]) + Number(found[2]);
}

// An address: hexadecimal, or the name of a function or a block, for its first word; else the name of a place begins
// so.
function addressStop(run, text) {
  const block = run.blocks.find(it => blockName(run, it).toLowerCase() === text.toLowerCase());
  if (block) return turn => run.pc[turn] === block.address;
  if (/^[0-9a-f]{4,8}$/i.test(text)) return turn => run.pc[turn] === fromHex(text);
  return text ? turn => placeName(run, run.pc[turn]).toLowerCase().startsWith(text.toLowerCase()) : null;
}

// A trap: its type, or a part of its name; any trap without.
function trapStop(run, text) {
  const isTrap = turn => run.event[turn] === TRAPPED || run.event[turn] === ERROR;
  if (!text) return isTrap;
  if (/^[0-9a-f]{1,2}$/i.test(text)) return turn => isTrap(turn) && run.eventValue[turn] === fromHex(text);
  return turn => isTrap(turn) && run.trapName(run.eventValue[turn]).includes(text.toLowerCase());
}

// A register of the window that a turn leads to holds another word than before, or a state register does.
function registerStop(run, text) {
  const name = text.toLowerCase(), state = STATE_REGISTERS[name.replace('%', '')], number = registerNumber(name);
  if (state) return turn => run[state].changesAt(turn);
  return number > 0 ? turn => run.register(number, run.window(turn)).changesAt(turn) : null;
}

function memoryStop(run, text) {
  return /^[0-9a-f]{1,8}$/i.test(text) ? turn => run.memoryWord((fromHex(text) & ~3) >>> 0).changesAt(turn) : null;
}

function textStop(run, text) {
  const wanted = text.toLowerCase();
  return text ?
    turn => (heading(run, turn) + instruction(run, turn) + ' ' + sentence(run, turn)).toLowerCase().includes(wanted) :
    null;
}

const STOPS = {
  address: addressStop,
  trap: trapStop,
  register: registerStop,
  memory: memoryStop,
  text: textStop
};
const EXAMPLES = {
  address: '0004001C, f2, f0+1C',
  trap: '05, overflow, or nothing',
  register: '%l0, %sp, y, wim',
  memory: '000FFFC0',
  text: 'save, annulled, puts out'
};

// The next turn, or the one before, that a stop holds of; -1 where there is none.
function findTurn(run, stop, turn, step) {
  for (let at = turn + step; at >= 1 && at <= run.turns; at += step)
    if (stop(at)) return at;
  return -1;
}

class StopPane {
  constructor(run, go) {
    this.run = run;
    this.go = go;
    byId('what').onchange = () => this.choose();
    byId('wanted').oninput = () => this.tell('');
    byId('wanted').onkeydown = event => {
      if (event.key === 'Enter') this.find(event.shiftKey ? -1 : 1);
      if (event.key === 'Escape') byId('wanted').blur();
    };
    this.choose();
  }

  choose() {
    byId('wanted').placeholder = EXAMPLES[byId('what').value];
    this.tell('');
  }

  tell(text) {
    byId('found').textContent = text;
    byId('wanted').setAttribute('aria-invalid', text.startsWith('no such') ? 'true' : 'false');
  }

  // The stop that is asked for; null where the text names nothing.
  stop() { return STOPS[byId('what').value](this.run, byId('wanted').value.trim()); }

  find(step) {
    const stop = this.stop();
    if (!stop) return this.tell('no such ' + byId('what').value);
    const found = findTurn(this.run, stop, this.turn, step);
    this.tell(found < 0 ? (step > 0 ? 'none further on' : 'none before') : 'at turn ' + found);
    if (found >= 0) this.go(found);
  }

  // Whether the run, when it is played, stops at this turn.
  stopsAt(turn) {
    const stop = byId('stop').checked ? this.stop() : null;
    return Boolean(stop) && stop(turn);
  }

  show(turn) { this.turn = turn; }
}
