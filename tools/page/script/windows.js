
// ---- Windows: the ring, the frames, the registers of the current window and the state registers. A pane of them may
// stand for each of two runs.
const INNER = 82, OUTER = 128, CENTER = (INNER + OUTER) / 2;
const CHANGED = 'ch';

const degrees = angle => (angle - 90) * Math.PI / 180;
const onCircle =
  (radius, angle) => [radius * Math.cos(degrees(angle)), radius * Math.sin(degrees(angle))].map(it => it.toFixed(2));

// The outline of a part of the ring between two radii and two angles.
function sector(inner, outer, from, to) {
  const large = to - from > 180 ? 1 : 0, point = (radius, angle) => onCircle(radius, angle).join(' ');
  return 'M' + point(inner, from) + 'L' + point(outer, from) + 'A' +
    [outer, outer, 0, large, 1, point(outer, to)].join(' ') + 'L' + point(inner, to) + 'A' +
    [inner, inner, 0, large, 0, point(inner, from)].join(' ') + 'Z';
}

class Ring {
  constructor(picture, windows) {
    this.picture = picture;
    this.windows = windows;
    this.step = 360 / windows;
    this.parts = Array.from({length: windows}, (_, window) => this.drawWindow(window));
    this.view = picture.appendChild(drawn('path', {fill: 'none', 'stroke-width': 5, 'stroke-linejoin': 'round'}));
    this.text(0, -42, 13, '').textContent = 'CWP';
    this.current = this.text(0, -9, 40, 'cwp');
    this.mode = this.text(0, 24, 13, 'mode');
    this.moved = this.text(0, 44, 13, 'moved');
  }

  text(x, y, size, className, weight = 400) {
    return this.picture.appendChild(drawn('text', {
      x,
      y,
      'text-anchor': 'middle',
      'dominant-baseline': 'central',
      'font-size': size,
      'font-weight': className === 'cwp' ? 700 : weight,
      class: className
    }));
  }

  // A window's locals take three fifths of its step; the outs of it, which are the ins of the next lower one, the rest.
  drawWindow(window) {
    const {picture, step, windows} = this, middle = -window * step, half = step * 0.3;
    const size = windows <= 8 ? 17 : windows <= 12 ? 15 : windows <= 20 ? 11 : 8;
    const locals = picture.appendChild(
      drawn('path', {d: sector(INNER, OUTER, middle - half, middle + half), stroke: 'var(--fg)', 'stroke-width': 0.8}));
    const shared = picture.appendChild(drawn('path', {
      d: sector(INNER + 5, OUTER - 5, middle + half, middle + step - half),
      stroke: 'var(--fg)',
      'stroke-width': 0.5
    }));
    const [x, y] = onCircle(CENTER + 10, middle), [nameX, nameY] = onCircle(CENTER - 10, middle),
              [markX, markY] = onCircle(OUTER + 20, middle);
    this.text(x, y, size, 'win', 700).textContent = window;
    const name = this.text(nameX, nameY, windows <= 12 ? 11.5 : size * 0.75, 'owner'),
          mark = this.text(markX, markY, 13, 'wim', 700);
    mark.setAttribute('fill', 'var(--verm)');
    if (windows <= 8) {
      const [sharedX, sharedY] = onCircle(CENTER, middle + step / 2);
      this.text(sharedX, sharedY - 6.5, 11.5, 'pair').textContent = 'o' + window;
      this.text(sharedX, +sharedY + 6.5, 11.5, 'pair').textContent = 'i' + (window + windows - 1) % windows;
    }
    return {locals, shared, name, mark};
  }

  show(window, supervisor, names, wim, moved) {
    const {windows, step} = this, above = (window + 1) % windows;
    this.parts.forEach((part, it) => {
      const masked = (wim >>> it & 1) === 1, current = it === window, name = names.get(it);
      const ofFrame = current ? (supervisor ? 'var(--pink)' : 'var(--amber)') : name ? 'var(--sky)' : 'var(--free)';
      part.locals.setAttribute('fill', masked && !current ? 'url(#hatch)' : ofFrame);
      part.shared.setAttribute('fill', current || it === above ? 'var(--amber)' : 'var(--panel)');
      part.name.textContent = name || (current && supervisor ? 'trap' : '');
      part.mark.textContent = masked ? 'WIM' : '';
    });
    this.view.setAttribute('d', sector(INNER - 3, OUTER + 3, -window * step - step * 0.7, -window * step + step * 0.7));
    this.view.setAttribute('stroke', supervisor ? 'var(--verm)' : 'var(--orange)');
    this.view.setAttribute('stroke-dasharray', supervisor ? '14 4' : 'none');
    this.current.textContent = window;
    this.mode.textContent = supervisor ? 'supervisor' : 'user';
    this.moved.textContent = moved;
  }
}

let decimal = false;
const shownWord = word => decimal ? String(word | 0).padStart(11) : hex(word);

class WindowsPane {
  constructor(host, run, story, go) {
    this.run = run;
    this.story = story;
    this.go = go;
    host.replaceChildren();
    this.title = host.appendChild(element('h2', 'run'));
    this.say = host.appendChild(element('p', 'say'));
    this.say.setAttribute('aria-live', 'polite');
    const top = host.appendChild(element('div', 'top'));
    this.makeRing(top);
    this.makeFrames(top);
    this.makeRegisters(host);
    this.state = host.appendChild(element('div', 'state'));
  }

  makeRing(top) {
    const box = top.appendChild(element('div', 'ring')),
          heading = box.appendChild(element('h2', 'large', 'Register windows '));
    heading.appendChild(element('span', '', 'SAVE \u21BB RESTORE \u21BA'));
    const picture = box.appendChild(drawn('svg', {viewBox: '-165 -158 330 316', role: 'img', class: 'circle'}));
    this.ring = new Ring(picture, this.run.windows);
    this.picture = picture;
  }

  makeFrames(top) {
    const box = top.appendChild(element('div', 'frames')), heading = box.appendChild(element('h2', '', 'Frames '));
    heading.appendChild(element('span', '', 'and their 64 bytes'));
    this.frames = box.appendChild(element('ol', 'open'));
    this.frames.setAttribute('aria-label', 'open frames, the newest first');
    this.frames.tabIndex = 0;
  }

  makeRegisters(host) {
    const table = host.appendChild(element('table', 'regs'));
    table.setAttribute('aria-label', 'registers');
    const heads = table.createTHead().insertRow(), body = table.createTBody();
    this.heads = ['globals', 'outs', 'locals', 'ins'].map(() => heads.appendChild(element('th')));
    this.cells = [];
    for (let row = 0; row < 8; row++) {
      const line = body.insertRow();
      for (let group = 0; group < 4; group++)
        this.cells[8 * group + row] = this.makeCell(line.insertCell(), 8 * group + row);
    }
  }

  makeCell(cell, number) {
    cell.dataset.r = 'goli'[number >> 3] + (number & 7);
    cell.appendChild(element('span', 'rn', registerName(number) + ' '));
    cell.value = cell.appendChild(element('span'));
    cell.addEventListener('click', () => this.goToWriter(number));
    return cell;
  }

  // To the turn that wrote the register, and from there to the one that wrote it before.
  goToWriter(number) {
    const history = this.run.register(number, this.run.window(this.turn)), since = history.since(this.turn);
    const writer = since === this.turn ? history.since(this.turn - 1) : since;
    if (writer) this.go(writer);
  }

  show(turn, comment) {
    const {run, story} = this, window = run.window(turn), supervisor = run.isSupervisor(turn),
                open = story.openFrames(turn);
    this.turn = turn;
    this.title.replaceChildren(story.title,
      element(
        'span', '', ' turn ' + turn + ' of ' + run.turns + ' \u00B7 ' + story.plain[turn] + ' without window traps'));
    this.say.className = 'say';
    tellTurn(this.say, run, turn, comment);
    const names = new Map();
    for (const frame of open)
      if (!frame.stored.at(turn) && !names.has(frame.window)) names.set(frame.window, story.nameOf(frame));
    const before = turn ? run.window(turn - 1) : window;
    this.ring.show(window, supervisor, names, run.wim.at(turn), before !== window ? before + ' \u2192 ' + window : '');
    this.showFrames(turn, open);
    this.showRegisters(turn, window);
    this.showState(turn);
  }

  showFrames(turn, open) {
    const {run, story} = this, told = [];
    this.frames.replaceChildren(...open.map((frame, at) => {
      const stored = frame.stored.at(turn), name = story.nameOf(frame),
            place = stored ? 'STORED' : 'window ' + frame.window;
      const classes =
        [stored ? 'out' : '', at === 0 ? 'cur' : '', frame.stored.changesAt(turn) ? 'hot' : ''].filter(it => it);
      if (at < 40) told.push(name + (stored ? ' on the stack at ' + hex(stored) : ' in window ' + frame.window));
      return element('li', classes.join(' '),
        name.padEnd(6) + place.padEnd(10) + hex(stored || run.register(14, frame.window).at(turn)));
    }));
    const marked = Array.from({length: run.windows}, (_, it) => it).filter(it => run.wim.at(turn) >>> it & 1);
    this.picture.setAttribute('aria-label',
      'Current window ' + run.window(turn) + '. WIM marks ' + marked.join(', ') +
        '. Frames, the newest first: ' + told.join('; ') + '.');
  }

  showRegisters(turn, window) {
    const {run} = this, below = (window + run.windows - 1) % run.windows, above = (window + 1) % run.windows;
    this.heads[0].textContent = 'globals';
    this.heads[1].replaceChildren(element('b', '', 'outs ' + window), ' = ins ' + below);
    this.heads[2].replaceChildren(element('b', '', 'locals ' + window));
    this.heads[3].replaceChildren(element('b', '', 'ins ' + window), ' = outs ' + above);
    this.cells.forEach((cell, number) => {
      const history = run.register(number, window), word = history.at(turn);
      cell.value.textContent = shownWord(word);
      cell.className = history.changesAt(turn) ? CHANGED : word ? '' : 'z';
      cell.title = number ? 'written at turn ' + history.since(turn) : 'always 0';
    });
  }

  showState(turn) {
    const {run, state} = this, psr = run.psr.at(turn), changed = turn ? psr ^ run.psr.at(turn - 1) : 0;
    state.replaceChildren();
    const bit = (label, at, title) => this.bit(label, psr >>> at & 1, changed >>> at & 1, title);
    this.item('icc', [bit('N', 23, 'negative'), bit('Z', 22, 'zero'), bit('V', 21, 'overflow'), bit('C', 20, 'carry')],
      false, 'icc');
    this.item('PSR',
      [
        bit('S', 7, 'supervisor'), bit('PS', 6, 'supervisor before the trap'), bit('ET', 5, 'traps enabled'),
        ' ' + hex(psr)
      ],
      false, 'psr');
    this.item('Y', [hex(run.y.at(turn))], run.y.changesAt(turn), 'y');
    this.item('WIM', this.maskBits(turn), false, 'wim');
    const type = run.trapBase.at(turn) >>> 4 & 255;
    if (type) this.item('last trap', [hex(type, 2) + ' ' + run.trapName(type)], run.trapBase.changesAt(turn), 'tt');
    this.item('PC', [hex(run.pc[turn + 1])], false, 'pc');
    const transfers =
      turn > 0 && run.npc[turn + 1] !== run.npc[turn] + 4 >>> 0 && run.npc[turn + 1] !== run.pc[turn + 1] + 4 >>> 0;
    this.item('nPC', [hex(run.npc[turn + 1])], transfers, 'npc');
    const fault = run.fault.at(turn);
    if (fault)
      this.item('fault status', [hex(fault) + ': ' + run.faultTexts.get(fault)], run.fault.changesAt(turn), 'fs');
  }

  item(name, parts, changed, className) {
    const box = this.state.appendChild(element('span', className + (changed ? ' ' + CHANGED : ''), name + ' '));
    box.append(...parts);
  }

  bit(label, set, changed, title) {
    const box = element('span', 'bit' + (set ? ' set' : '') + (changed ? ' chg' : ''), label);
    box.title = title + (set ? ', 1' : ', 0');
    return box;
  }

  maskBits(turn) {
    const {run} = this, wim = run.wim.at(turn), changed = turn ? wim ^ run.wim.at(turn - 1) : 0;
    if (run.windows > 12) return [hex(wim)];
    return Array.from({length: run.windows}, (_, it) => run.windows - 1 - it)
      .map(it => this.bit(String(it), wim >>> it & 1, changed >>> it & 1, 'window ' + it));
  }
}
