
// ---- Memory: pages with their marks, the walk of the last access, and the words about it.
const CONTEXT_TABLE = 0x2000, RIGHTS = ['r--', 'rw-', 'r-x', 'rwx', '--x', 'r-- s:rw-', '--- s:r-x', '--- s:rwx'];
const REFERENCED_BIT = 0x20, MODIFIED_BIT = 0x40;
const PAGE_GROUPS = [['code', 0x40000, 0x2A00], ['data', 0x80000, 0x2B00], ['stack', 0xC0000, 0x2C00]];
const SYSTEM_PAGES = [['traps', 0xF0000000, 0x2D00], ['handlers', 0xF0001000, 0x2D04], ['device', 0xF0010000, 0x2D40]];
const DATA_START = 0x80000, STACK_START = 0xC0000, RAM_END = 0x100000;
// How many turns before this one an access is looked for, to show memory about it.
const LOOK_BACK = 400;

// The words that a walk reads for an address, from the context table on.
function walkOf(run, address, turn) {
  const indexes = [0, address >>> 24, address >>> 18 & 63, address >>> 12 & 63], steps = [];
  let place = CONTEXT_TABLE;
  for (let level = 0; level < 4; level++) {
    const word = run.entry(place).at(turn);
    steps.push({level, place, word, index: indexes[level]});
    if ((word & 3) !== 1) break;
    place = (word & ~3) * 16 + 4 * (indexes[level + 1] || 0);
  }
  return steps;
}

function entryText(word) {
  const marks = (word & REFERENCED_BIT ? ' R' : '') + (word & MODIFIED_BIT ? ' M' : '');
  switch (word & 3) {
    case 0: return 'invalid';
    case 1: return '\u2192 table ' + hex((word & ~3) * 16, 4);
    default: return 'page ' + hex(word >>> 8, 1) + '000 ' + RIGHTS[word >>> 2 & 7] + marks;
  }
}

class MemoryPane {
  constructor(run, story, go) {
    this.run = run;
    this.story = story;
    this.go = go;
    this.tiles = [];
    byId('pages').replaceChildren();
    for (const [name, first, table] of PAGE_GROUPS) {
      const pages = Array.from({length: 64}, (_, it) => [first + 4096 * it, table + 4 * it])
                      .filter(page => run.entries.has(page[1]));
      if (pages.length) this.makeGroup(name, pages.map(([address, place]) => [name, address, place]), false);
    }
    this.makeGroup('system', SYSTEM_PAGES, true);
  }

  makeGroup(name, pages, named) {
    const group = byId('pages').appendChild(element('div', 'pg'));
    group.appendChild(element('span', 'nm', name));
    for (const [title, address, place] of pages) {
      const tile = group.appendChild(element('span', 'tile'));
      tile.title = title + ' ' + hex(address);
      tile.setAttribute('role', 'img');
      if (named) group.appendChild(element('span', 'dim', title));
      this.tiles.push({tile, title, address, place});
    }
  }

  show(turn) {
    this.turn = turn;
    this.showWalk(turn);
    this.showWords(turn);
  }

  // The access that the walk is shown of: the data's, else the fetch.
  accessAt(turn) {
    const {run} = this;
    if (!turn || run.event[turn] === ANNULLED) return null;
    const kind = run.accessKind[turn];
    const bad =
      kind === REFUSED || (run.event[turn] === TRAPPED || run.event[turn] === ERROR) && run.eventValue[turn] === 1;
    const name = {[LOAD]: 'load from ', [STORE]: 'store to ', [REFUSED]: 'refused access to '}[kind] || 'fetch from ';
    return {address: kind ? run.accessAddress[turn] : run.pc[turn], name, bad};
  }

  showWalk(turn) {
    const access = this.accessAt(turn), body = byId('walk').tBodies[0];
    body.replaceChildren();
    byId('walkof').textContent = access ? access.name + hex(access.address) :
      turn                              ? 'none: an annulled word isn\u2019t fetched' :
                                          '';
    if (access) {
      const steps = walkOf(this.run, access.address, turn);
      steps.forEach((step, at) => {
        const row = body.insertRow(), last = at === steps.length - 1;
        row.className = !last ? '' : access.bad ? 'badw' : 'endw';
        for (const text of ['level ' + step.level, step.level ? 'index ' + hex(step.index, 2) : '', hex(step.place, 4),
               hex(step.word), entryText(step.word) + (last && access.bad ? '  \u2716 refused' : '')])
          row.insertCell().textContent = text;
      });
    }
    for (const tile of this.tiles) this.showTile(tile, turn, access);
  }

  showTile({tile, title, address, place}, turn, access) {
    const word = this.run.entry(place).at(turn), hit = access && access.address >>> 12 === address >>> 12;
    const referenced = (word & REFERENCED_BIT) !== 0, modified = (word & MODIFIED_BIT) !== 0;
    tile.className = 'tile' + (modified ? ' M' : referenced ? ' R' : '') + (!hit ? '' : access.bad ? ' bad' : ' hit');
    tile.textContent = (referenced ? 'R' : '') + (modified ? 'M' : '');
    tile.setAttribute('aria-label',
      title + ' page ' + hex(address) + (referenced ? ' referenced' : '') + (modified ? ' modified' : ''));
  }

  // The address about which words are shown: the last access's, or where the frame's %sp points.
  lastAddress(turn, frame) {
    const {run} = this;
    for (let at = turn; at > Math.max(0, turn - LOOK_BACK); at--)
      if ((run.accessKind[at] === STORE || run.accessKind[at] === LOAD) && run.accessAddress[at] < RAM_END)
        return run.accessAddress[at];
    return run.register(14, frame.window).at(turn) >>> 0;
  }

  // The frame whose save area the address lies in: one that is stored, or that a handler is at.
  saveAreaOf(turn, address) {
    const {run} = this;
    for (const frame of this.story.openFrames(turn)) {
      const stored = frame.stored.at(turn), start = stored || run.register(14, frame.window).at(turn);
      const now = run.accessKind[turn] && run.accessAddress[turn] >= start && run.accessAddress[turn] < start + 64 &&
        run.isSupervisor(turn - 1);
      if (address >= start && address < start + 64 && (stored || now)) return {frame, start};
    }
    return null;
  }

  showWords(turn) {
    const {run, story} = this, address = this.lastAddress(turn, story.frames.at(turn)),
                save = this.saveAreaOf(turn, address);
    const rows = save || story.traps.length > FEW_TRAPS ? 4 : 8;
    const start = save ? save.start : address & -16 * rows, body = byId('mem').tBodies[0];
    const region = start >= STACK_START ? ': stack' : start >= DATA_START ? ': data' : '';
    byId('memof').textContent = hex(start) + (save ? ': the save area of ' + story.nameOf(save.frame) : region);
    body.replaceChildren();
    for (let row = 0; row < rows; row++) {
      const line = body.insertRow();
      for (let column = 0; column < 4; column++)
        this.putWord(line.insertCell(), turn, start + 16 * row + 4 * column >>> 0, save ? 4 * row + column : -1);
      if (!save) line.appendChild(element('td', 'as', this.letters(turn, start + 16 * row)));
    }
  }

  putWord(cell, turn, address, number) {
    const {run} = this, history = run.memoryWord(address);
    const name = number >= 0 ? '%' +
        'li'[number >> 3] + (number & 7) + ' ' :
      address & 15 ? '' :
                     hex(address & 0xFFF, 3) + ' ';
    const touched = turn > 0 && run.accessKind[turn] && run.accessAddress[turn] < address + 4 &&
      run.accessAddress[turn] + run.accessSize[turn] > address;
    cell.dataset.m = hex(address);
    cell.appendChild(element('span', 'rn', name));
    cell.appendChild(element('span', '', hex(history.at(turn))));
    cell.className = touched ? (run.accessKind[turn] === STORE ? CHANGED : 'go') : history === NEVER ? 'z' : '';
    cell.addEventListener('click', () => {
      const writer = history.since(this.turn);
      if (writer) this.go(writer);
    });
  }

  letters(turn, start) {
    let text = '';
    for (let at = 0; at < 16; at++) {
      const byte = this.run.memoryWord(start + (at & ~3) >>> 0).at(turn) >>> 24 - 8 * (at & 3) & 255;
      text += byte > 32 && isGraphic(byte) ? String.fromCharCode(byte) : '\u00B7';
    }
    return text;
  }
}
