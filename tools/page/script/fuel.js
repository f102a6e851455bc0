
// ---- Fuel: the turns used and the bound on the end; whose turns they were, as a strip and by block.
const PLOT_WIDTH = 1000, PLOT_HEIGHT = 100, STRIP_PARTS = 1000, SHOWN_BLOCKS = 40;
// By kind of turn: its colour, its height in the strip, and its rank where several fall together: a trap is never lost.
const STRIP = {
  [OF_USER]: {fill: 'var(--sky)', height: 4, rank: 0},
  [OF_OVERFLOW]: {fill: 'var(--verm)', height: 10, rank: 4},
  [OF_UNDERFLOW]: {fill: 'var(--purple)', height: 7, rank: 4},
  [OF_SERVICE]: {fill: 'var(--green)', height: 5.5, rank: 2},
  [OF_OTHER]: {fill: 'var(--fg)', height: 10, rank: 5},
  [OF_ANNULLED]: {fill: 'var(--orange)', height: 2, rank: 1},
};

class FuelPane {
  constructor(run, story, bound, go) {
    this.run = run;
    this.story = story;
    this.bound = bound;
    this.go = go;
    this.plot = byId('fuel');
    this.top = bound ? run.functions[0].budget : Math.max(1, run.turns);
    this.drawPlot();
    this.plot.onclick = event => this.goToPlace(event, this.plot);
    this.listPlaces();
    this.drawStrip();
  }

  goToPlace(event, picture) {
    const box = picture.getBoundingClientRect();
    this.go(Math.round((event.clientX - box.left) / box.width * this.run.turns));
  }

  across(turn) { return turn / Math.max(1, this.run.turns) * PLOT_WIDTH; }
  down(turns) { return PLOT_HEIGHT - 3 - turns / this.top * (PLOT_HEIGHT - 8); }

  line(d, stroke, more = {}) {
    return this.plot.appendChild(
      drawn('path', {d, fill: 'none', stroke, 'stroke-width': 2.5, 'vector-effect': 'non-scaling-stroke', ...more}));
  }

  drawPlot() {
    this.plot.setAttribute('viewBox', '0 0 ' + PLOT_WIDTH + ' ' + PLOT_HEIGHT);
    this.plot.replaceChildren();
    if (this.bound) this.drawBound();
    this.line('M0 ' + this.down(0) + 'L' + PLOT_WIDTH + ' ' + this.down(this.run.turns), 'var(--fg)');
    this.marker = this.line('', 'var(--orange)', {'stroke-width': 3});
    this.otherMarker = this.line('', 'var(--purple)', {'stroke-width': 2, 'stroke-dasharray': '3 3'});
    byId('lb1').textContent = this.bound ? 'budget ' + this.top : '';
    byId('lb2').textContent = 'turns used';
    byId('lb3').textContent = this.bound ? 'ends by this turn' : '';
  }

  drawBound() {
    const {turns, values} = this.bound;
    let steps = 'M0 ' + this.down(values[0]);
    for (let at = 1; at < turns.length; at++)
      steps += 'H' + this.across(turns[at]).toFixed(2) + 'V' + this.down(values[at]).toFixed(2);
    steps += 'H' + PLOT_WIDTH;
    this.line(steps + 'V' + PLOT_HEIGHT + 'H0Z', 'none', {fill: 'var(--sky)', 'fill-opacity': 0.55});
    this.line(
      'M0 ' + this.down(this.top) + 'H' + PLOT_WIDTH, 'var(--verm)', {'stroke-width': 2, 'stroke-dasharray': '9 5'});
    this.line(steps, 'var(--blue)');
  }

  // Which lines of C, or else which blocks, the most turns were made in, those of their traps apart.
  listPlaces() {
    const {run} = this, isOfC = run.linesOfC.length > 0;
    const places = isOfC ? [...new Set(run.linesOfC.map(it => it.line))] : run.blocks;
    const list = places.filter(place => place.own + place.traps)
                   .sort((one, other) => other.own + other.traps - one.own - one.traps);
    const most = list.length ? list[0].own + list[0].traps : 1;
    const nameOf = place =>
      isOfC ? lineName(place) + '  ' + place.text : blockName(run, place) + ' ' + hex(place.address, 5);
    this.placeAt = turn => isOfC ? run.lineAt(run.pc[turn]) : run.blockOf(run.pc[turn]);
    this.bars = list.slice(0, SHOWN_BLOCKS).map(place => this.makeBar(place, nameOf(place), most, isOfC));
    byId('hot').replaceChildren(...this.bars);
  }

  makeBar(place, name, most, isOfC) {
    const bar = element('div', isOfC ? 'bar line' : 'bar'),
          picture = drawn('svg', {viewBox: '0 0 100 10', preserveAspectRatio: 'none', 'aria-hidden': 'true'});
    picture.append(drawn('rect', {width: place.own / most * 100, height: 10, fill: 'var(--blue)'}),
      drawn('rect', {x: place.own / most * 100, width: place.traps / most * 100, height: 10, fill: 'url(#hatch)'}));
    bar.append(element('span', '', name), picture,
      element('span', '', place.own + (place.traps ? ' + ' + place.traps : '')));
    bar.title = name;
    bar.place = place;
    bar.addEventListener('click', () => this.nextIn(place));
    return bar;
  }

  // The next turn at which the run comes to a place.
  nextIn(place) {
    const {run} = this, isFirst = turn => place.address === undefined ?
      this.placeAt(turn) === place && this.placeAt(turn - 1) !== place : run.pc[turn] === place.address;
    for (let turn = this.turn + 1; turn <= run.turns; turn++)
      if (isFirst(turn)) return this.go(turn);
  }

  kindBetween(from, to) {
    let kind = OF_USER;
    for (let turn = from; turn <= to; turn++)
      if (STRIP[this.story.kinds[turn]].rank > STRIP[kind].rank) kind = this.story.kinds[turn];
    return kind;
  }

  drawStrip() {
    const strip = byId('ribbon'), {turns} = this.run, parts = Math.min(turns, STRIP_PARTS);
    strip.setAttribute('viewBox', '0 0 ' + Math.max(1, parts) + ' 10');
    for (const old of strip.querySelectorAll('rect.part')) old.remove();
    let from = 0, last = -1;
    const flush = to => {
      if (last < 0) return;
      const {fill, height} = STRIP[last];
      strip.appendChild(drawn('rect', {x: from, y: 10 - height, width: to - from, height, fill, class: 'part'}));
    };
    for (let part = 0; part < parts; part++) {
      const first = Math.floor(part * turns / parts) + 1;
      const kind = this.kindBetween(first, Math.max(first, Math.floor((part + 1) * turns / parts)));
      if (kind === last) continue;
      flush(part);
      from = part;
      last = kind;
    }
    flush(parts);
    strip.onclick = event => this.goToPlace(event, strip);
  }

  show(turn) {
    const {run} = this;
    this.turn = turn;
    this.marker.setAttribute('d', 'M' + this.across(turn) + ' 0V' + PLOT_HEIGHT);
    const by = this.bound && this.bound.at(turn);
    byId('fuelsay').textContent = this.bound ?
      'used ' + turn + ' \u25AC, by the declared fuel it ends by turn ' + by + ' (blue), budget ' + this.top +
        ' (dashed); left at most ' + (by - turn) :
      'used ' + turn + '; the image isn\u2019t accepted, so its fuel bounds nothing';
    this.plot.setAttribute('aria-label', byId('fuelsay').textContent);
    const now = turn > 0 ? this.placeAt(turn) : null;
    for (const bar of this.bars) bar.classList.toggle('cur', now === bar.place);
  }

  // Where the run beside stands, as a dotted line.
  markOther(turn) {
    this.otherMarker.setAttribute(
      'd', turn < 0 ? '' : 'M' + this.across(Math.min(turn, this.run.turns)) + ' 0V' + PLOT_HEIGHT);
  }
}
