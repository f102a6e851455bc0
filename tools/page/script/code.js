
// ---- Code: the source where one was given, the user's words, and vectors and handlers.

// Of an image with more words only those are shown that ran.
const MOST_WORDS = 4000;

class CodePane {
  constructor(run, story, go) {
    this.run = run;
    this.go = go;
    this.rows = new Map();
    this.sourceRows = new Map();
    this.groups = [];
    this.marked = [];
    this.hasSource = run.source.length > 0;
    this.bySource = this.hasSource;
    this.story = story;
    this.rowsOfC = new Map();
    for (const pane of [byId('c'), byId('src'), byId('code'), byId('sup')]) pane.replaceChildren();
    this.listC();
    this.listUserCode();
    this.listSupervisorCode();
    this.listSource();
    this.giveReason();
    this.choose();
  }

  // Calls with the next turn at an address, from the first one again where there is none behind.
  nextAt(address, turn) {
    const {run} = this;
    for (let step = 1; step <= run.turns; step++) {
      const next = (turn + step - 1) % run.turns + 1;
      if (run.pc[next] === address) return this.go(next);
    }
  }

  makeRow(listed, pane) {
    const row = element('div', 'row'), before = this.run.code.get(listed.address - 4), far = distance(listed.word);
    row.sign = row.appendChild(element('span', 'g'));
    row.appendChild(element('span', 'ad', hex(listed.address) + ' '));
    const isFirstOfVector = listed.address >>> 12 === TRAP_TABLE_PAGE && (listed.address & 15) === 0;
    if (before && isTransfer(before.word) && !isFirstOfVector)
      row.appendChild(element('span', 'sl', '\u2514 ')).title = 'a delay slot';
    row.appendChild(element('span', 'tx', listed.text));
    if (far) row.appendChild(element('span', 'to', ' \u2192 ' + hex(listed.address + far, 5)));
    row.appendChild(element('span', 'n', listed.runs ? '\u00D7' + listed.runs : '')).title =
      'turns here in the whole run';
    row.dataset.a = hex(listed.address);
    row.pane = pane;
    row.addEventListener('click', () => this.nextAt(listed.address, this.turn));
    this.rows.set(listed.address, row);
    return row;
  }

  blockTitle(block) {
    const {accepted} = this.run, of = block.function;
    const kind = block.number ? '' : (of.framed ? ' framed' : ' leaf') + (accepted ? ', budget ' + of.budget : '');
    const terms = block.terms.map(([location, factor]) => (factor < 0 ? ' - ' : ' + ') + Math.abs(factor) + '\u00B7' +
        (location < 32 ? registerName(location) : 'slot ' + (location - 32)));
    return blockName(this.run, block) + kind + (accepted && block.number ? '  fuel ' + block.fuel + terms.join('') : '');
  }

  // The files of C, and a row a line; of a file whose text isn't there the lines that words come from.
  listC() {
    const pane = byId('c');
    for (const file of this.run.files) {
      const numbers = [...file.known.keys()].sort((one, other) => one - other), known = file.lines.length > 0;
      pane.appendChild(element('div', 'row fn', file.name + (known ? '' : ': its text isn\u2019t there')));
      const shown = known ? file.lines.map((_, at) => at + 1) : numbers;
      for (const number of shown) this.listLineOfC(pane, file, number);
    }
    pane.hidden = this.run.files.length === 0;
  }

  listLineOfC(pane, file, number) {
    const row = element('div', 'row src'), line = file.known.get(number);
    row.sign = row.appendChild(element('span', 'g'));
    row.appendChild(element('span', 'ad', String(number).padStart(4) + ' '));
    row.appendChild(element('span', 'tx', (file.lines[number - 1] || '').replace(/\t/g, '    ')));
    row.pane = pane;
    pane.appendChild(row);
    if (!line) return;
    row.dataset.line = lineName(line);
    row.appendChild(element('span', 'n', line.own ? '\u00D7' + line.own : '')).title = 'turns here in the whole run';
    row.addEventListener('click', () => this.nextOfC(line));
    this.rowsOfC.set(line, row);
  }

  // Calls with the next turn at which the run comes to a line of C, from the first one again where there is none
  // behind.
  nextOfC(line) {
    const {run, turn} = this, isAt = at => run.isUserAt(at) && run.lineAt(run.pc[at]) === line;
    for (let step = 1; step <= run.turns; step++) {
      const next = (turn + step - 1) % run.turns + 1;
      if (isAt(next) && !(next > 1 && isAt(next - 1))) return this.go(next);
    }
  }

  // Before the words of a line of C its text.
  listHeadOfC(pane, address, last) {
    const line = this.run.lineAt(address);
    if (line && line !== last)
      pane.appendChild(element('div', 'row cl', '        ' + lineName(line) + '  ' + line.text)).title = line.text;
    return line;
  }

  listUserCode() {
    let line = null;
    const pane = byId('code'), blocks = new Map(this.run.blocks.map(block => [block.address, block]));
    const many = this.run.code.size > MOST_WORDS;
    for (const listed of this.run.code.values()) {
      if (listed.address >= USER_CODE_END || many && !listed.runs) continue;
      const block = blocks.get(listed.address);
      if (block) pane.appendChild(element('div', 'row fn', this.blockTitle(block)));
      line = this.listHeadOfC(pane, listed.address, block ? null : line);
      pane.appendChild(this.makeRow(listed, pane));
    }
  }

  // The words of a vector or a handler stand in one group, shown while its trap is at work.
  groupOf(address) {
    const handler = address >>> 12 === HANDLERS_PAGE;
    const type = !handler ? address >>> 4 & 255 : address < UNDERFLOW ? OVERFLOW_TRAP : UNDERFLOW_TRAP;
    const title = !handler   ? 'vector ' + hex(type, 2) + ' ' + this.run.trapName(type) :
      type === OVERFLOW_TRAP ? 'overflow handler: stores a window' :
                               'underflow handler: loads a window';
    let group = this.groups.find(it => it.title === title);
    if (!group) {
      group = {title, type, box: byId('sup').appendChild(element('div'))};
      group.box.appendChild(element('div', 'row fn', title));
      this.groups.push(group);
    }
    return group.box;
  }

  listSupervisorCode() {
    for (const listed of this.run.code.values()) {
      if (listed.address < USER_CODE_END) continue;
      this.groupOf(listed.address).appendChild(this.makeRow(listed, byId('sup')));
    }
    byId('sup').hidden = byId('suph').hidden = this.groups.length === 0;
  }

  // A row a line of the source, with the address of its first word before it.
  listSource() {
    const pane = byId('src');
    for (const line of this.run.source) {
      const isDirective = !line.words && /^\s*(\.|[A-Za-z_.][\w.]*:)/.test(line.text);
      const row = element('div', 'row src' + (isDirective ? ' dir' : ''));
      row.sign = row.appendChild(element('span', 'g'));
      row.appendChild(element('span', 'ad', line.words ? hex(line.address, 5) + ' ' : '      '));
      const cut = line.text.indexOf('!'), body = cut < 0 ? line.text : line.text.slice(0, cut);
      row.appendChild(element('span', 'tx', body.replace(/\t/g, '    ').replace(/ {3,}$/, '  ')));
      if (cut >= 0) row.appendChild(element('span', 'co', line.text.slice(cut)));
      row.pane = pane;
      if (line.words) this.bindSourceRow(row, line);
      pane.appendChild(row);
    }
  }

  bindSourceRow(row, line) {
    const words = Array.from({length: line.words}, (_, at) => this.run.code.get(line.address + 4 * at));
    row.dataset.a = hex(line.address);
    row.title = words.map(listed => hex(listed.address) + ' ' + listed.text + ' \u00D7' + listed.runs).join('\n');
    for (const listed of words) this.sourceRows.set(listed.address, row);
    row.addEventListener('click', () => this.nextAt(line.address, this.turn));
  }

  // Of an image that isn't accepted, what `inspect why` tells, behind the word that breaks the rule.
  giveReason() {
    const found = / at ([0-9A-F]{8})$/.exec(this.run.verdict);
    if (!found || !this.run.reason.length) return;
    for (const rows of [this.rows, this.sourceRows]) {
      const row = rows.get(fromHex(found[1]));
      if (!row) continue;
      const box = element('details', 'why'), [rule, meaning, ...rest] = this.run.reason;
      box.appendChild(element('summary', '', '\u2716 ' + rule + ': ' + (meaning || '')));
      box.appendChild(element('pre', '', rest.join('\n').trim()));
      row.classList.add('refused');
      box.hidden = true;
      row.after(box);
    }
  }

  openReason() {
    for (const box of document.querySelectorAll('.why')) {
      box.hidden = !box.hidden;
      box.open = !box.hidden;
      if (box.open) bringIntoView(box.parentNode, box);
    }
    scrollPanes();
  }

  choose() {
    byId('src').hidden = !this.bySource;
    byId('code').hidden = this.bySource;
    byId('b-source').hidden = !this.hasSource;
    byId('b-source').setAttribute('aria-pressed', String(this.bySource));
  }

  exchangeSource() {
    if (!this.hasSource) return;
    this.bySource = !this.bySource;
    this.choose();
    this.show(this.turn);
  }

  mark(address, classes, sign) {
    return this.markRow(this.bySource && this.sourceRows.get(address) || this.rows.get(address), classes, sign);
  }

  markRow(row, classes, sign) {
    if (!row) return null;
    row.classList.add(...classes.split(' '));
    row.sign.textContent = (row.sign.textContent + ' ' + sign).trim();
    this.marked.push([row, classes]);
    return row;
  }

  // The comment of the source's line that the turn is at.
  commentAt(turn) {
    const row = turn && this.bySource && this.run.fetched[turn] ? this.sourceRows.get(this.run.pc[turn]) : null;
    const comment = row && row.querySelector('.co');
    return comment ? comment.textContent : '';
  }

  show(turn) {
    const {run, story} = this;
    this.turn = turn;
    for (const [row, classes] of this.marked) {
      row.classList.remove(...classes.split(' '));
      row.sign.textContent = '';
    }
    this.marked = [];
    const goesOn = turn < run.turns || !run.ended, annuls = turn < run.turns && run.event[turn + 1] === ANNULLED;
    const now = turn ? this.mark(run.pc[turn], run.event[turn] === ANNULLED ? 'now an' : 'now', String(turn)) : null;
    const next = goesOn ? this.mark(run.pc[turn + 1], annuls ? 'nx an' : 'nx', 'PC') : null;
    if (goesOn) this.mark(run.npc[turn + 1], 'nn', 'nPC');
    this.showC(turn, goesOn);
    if (turn && run.isSupervisor(turn)) this.showTrapped(countUpTo(story.traps, turn));
    this.showGroups(turn);
    for (const row of [next, now])
      if (row) bringIntoView(row.pane, row);
  }

  // The line of C of the program's own last turn, and that of the one that comes next.
  showC(turn, goesOn) {
    const {run} = this;
    let own = turn;
    while (own > 0 && !run.isUserAt(own)) own--;
    const now = own ? run.lineAt(run.pc[own]) : null, next = goesOn ? run.lineAt(run.pc[turn + 1]) : null;
    const rowNow = this.markRow(this.rowsOfC.get(now), 'now', String(own));
    const rowNext = next === now ? null : this.markRow(this.rowsOfC.get(next), 'nx', 'PC');
    for (const row of [rowNext, rowNow])
      if (row) bringIntoView(row.pane, row);
  }

  showTrapped(count) {
    if (!count) return;
    const row = this.mark(this.run.pc[this.story.traps[count - 1]], 'tr', 'trap');
    if (row) bringIntoView(row.pane, row);
  }

  showGroups(turn) {
    const {run} = this, typeAt = at => run.isSupervisor(at) ? run.trapBase.at(at) >>> 4 & 255 : 0;
    const now = typeAt(turn), before = turn ? typeAt(turn - 1) : 0;
    for (const group of this.groups)
      group.box.hidden = Boolean(now || before) && group.type !== now && group.type !== before;
  }
}
