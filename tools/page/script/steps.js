
// ---- The page: its panes, and the steps through the run.
// Milliseconds until the address names the turn, since browsers take some 100 to 200 changes of it in half a minute and
// drop the rest; and of a turn that is played.
const REST = 200, PLAY = 600;
const NO_RUN = /^\s*$/;

function sideOf(id, comments) {
  const text = byId(id).textContent;
  if (NO_RUN.test(text)) return null;
  const run = new Run(text, comments), story = new Story(run);
  return {run, story, bound: run.accepted ? boundOf(run) : null};
}

class Page {
  constructor(first, second) {
    this.sides = second ? [first, second] : [first];
    if (second) numberRuns(first, second);
    this.turn = -1;
    this.layout = second ? 'two' : '0';
    this.build();
  }

  get first() { return this.sides[0]; }
  get run() { return this.first.run; }

  build() {
    const {run, story, bound} = this.first, go = turn => this.go(turn);
    this.code = new CodePane(run, story, go);
    this.windows = new WindowsPane(byId('first'), run, story, go);
    this.stops = new StopPane(run, go);
    this.fuel = new FuelPane(run, story, bound, go);
    this.beside = this.sides[1] ? new BesidePane(...this.sides) : null;
    this.panes = [
      this.code, new MemoryPane(run, story, go), new TrapsPane(run, story, go), new OutputPane(run), this.fuel,
      this.stops
    ];
    document.body.dataset.bound = bound ? 'fuel' : 'none';
    document.body.dataset.traps = story.traps.length > FEW_TRAPS ? 'many' : 'few';
    this.showVerdict();
    byId('slide').max = run.turns;
    byId('last').textContent = run.turns + (run.ended ? '' : ' (limit)');
    document.title =
      'Geyserpan: ' + run.turns + ' turns on ' + run.windows + ' windows' + (run.ended ? '' : ', to the limit');
    for (const id of ['b-two', 'b-exchange', 'together-box']) byId(id).hidden = !this.beside;
    this.arrange(this.layout);
  }

  showVerdict() {
    const badge = byId('verdict');
    badge.textContent = this.run.verdict;
    badge.className = this.run.accepted ? 'ok' : 'no';
    badge.disabled = this.run.accepted;
  }

  show() {
    const {turn, run} = this;
    for (const pane of this.panes) pane.show(turn);
    const comment = this.code.commentAt(turn);
    this.windows.show(turn, comment);
    tellTurn(byId('say'), run, turn, comment);
    if (this.beside) this.beside.show(turn);
    this.fuel.markOther(this.beside && this.layout === 'two' ? this.beside.turn : -1);
    byId('goto').value = turn;
    byId('slide').value = turn;
    byId('slide').setAttribute('aria-valuetext', 'turn ' + turn + ' of ' + run.turns);
    document.body.dataset.turn = turn;
    scrollPanes();
  }

  // Shows a turn; the page's address names it, once the steps come to rest.
  go(turn, keepsAddress = false) {
    const wanted = Math.max(0, Math.min(this.run.turns, Number.isFinite(turn) ? Math.trunc(turn) : 0));
    if (wanted === this.turn) return;
    this.turn = wanted;
    this.show();
    clearTimeout(this.later);
    if (!keepsAddress) this.later = setTimeout(() => history.replaceState(null, '', '#turn=' + this.turn), REST);
  }

  step(count) { this.go(this.turn + count); }

  toTrap(step) {
    const {traps} = this.first.story, made = countUpTo(traps, step > 0 ? this.turn : this.turn - 1);
    const turn = step > 0 ? traps[made] : traps[made - 1];
    if (turn) this.go(turn);
  }

  toUser(step) {
    let turn = this.turn + step;
    while (turn > 0 && turn < this.run.turns && this.run.isSupervisor(turn - 1)) turn += step;
    this.go(turn);
  }

  toOutput(step) {
    const turns = this.run.outputTurns, count = countUpTo(turns, step > 0 ? this.turn : this.turn - 1);
    const turn = step > 0 ? turns[count] : turns[count - 1];
    if (turn) this.go(turn);
  }

  play() {
    if (this.timer) {
      clearInterval(this.timer);
      this.timer = 0;
    } else {
      if (this.turn >= this.run.turns) this.go(0);
      this.timer = setInterval(() => this.playOn(), PLAY);
    }
    byId('b-play').textContent = this.timer ? '\u275A\u275A pause' : '\u25B6\uFE0E play';
  }

  playOn() {
    this.step(1);
    if (this.turn >= this.run.turns || this.stops.stopsAt(this.turn)) this.play();
  }

  // 0 all panes, 1 code, 2 windows, 3 memory large; two: both runs.
  arrange(layout) {
    this.layout = layout === 'two' && !this.beside ? '0' : layout;
    document.body.dataset.layout = this.layout;
    if (this.turn >= 0) this.show();
  }

  // The other run becomes the first one, at the turn where it stands.
  exchange() {
    if (!this.beside) return;
    const other = this.beside.turn || 0;
    this.sides.reverse();
    this.turn = -1;
    this.build();
    this.go(other);
  }

  changeRadix() {
    decimal = !decimal;
    byId('b-base').textContent = decimal ? 'decimal' : 'hex';
    this.show();
  }
}

function changeTheme() {
  const root = document.documentElement, system = matchMedia('(prefers-color-scheme: dark)').matches ? 'dark' : 'light';
  const now = root.dataset.theme || system;
  root.dataset.theme = now === 'dark' ? 'light' : 'dark';
  byId('b-theme').textContent = now;
}

const comments = listedComments();
const page = new Page(sideOf('data', comments), sideOf('beside', comments));
const find = () => {
  byId('wanted').focus();
  byId('wanted').select();
};
const help = () => byId('help').showModal();
const KEYS = {
  ArrowRight: event => page.step(event.shiftKey ? 10 : 1),
  ArrowLeft: event => page.step(event.shiftKey ? -10 : -1),
  Home: () => page.go(0),
  End: () => page.go(page.run.turns),
  ' ': () => page.play(),
  t: () => page.toTrap(1),
  T: () => page.toTrap(-1),
  u: () => page.toUser(1),
  U: () => page.toUser(-1),
  o: () => page.toOutput(1),
  O: () => page.toOutput(-1),
  n: () => page.stops.find(1),
  N: () => page.stops.find(-1),
  '/': find,
  x: () => page.changeRadix(),
  d: changeTheme,
  s: () => page.code.exchangeSource(),
  w: () => page.code.openReason(),
  0: () => page.arrange('0'),
  1: () => page.arrange('1'),
  2: () => page.arrange('2'),
  3: () => page.arrange('3'),
  4: () => page.arrange('two'),
  b: () => page.exchange(),
  '?': help,
};
const BUTTONS = {
  'b-home': KEYS.Home,
  'b-end': KEYS.End,
  'b-prev': () => page.step(-1),
  'b-next': () => page.step(1),
  'b-play': KEYS[' '],
  'b-ntrap': KEYS.t,
  'b-ptrap': KEYS.T,
  'b-over': KEYS.u,
  'b-out': KEYS.o,
  'b-base': KEYS.x,
  'b-theme': changeTheme,
  'b-source': KEYS.s,
  'b-help': help,
  'b-find': KEYS.n,
  'b-back': KEYS.N,
  'b-two': () => page.arrange(page.layout === 'two' ? '0' : 'two'),
  'b-exchange': KEYS.b,
  verdict: KEYS.w,
};
for (const id of Object.keys(BUTTONS)) byId(id).addEventListener('click', BUTTONS[id]);
byId('slide').addEventListener('input', event => page.go(Number(event.target.value)));
byId('goto').addEventListener('change', event => page.go(Number(event.target.value)));
byId('together').addEventListener('change', () => page.show());
document.addEventListener('keydown', event => {
  const typing = ['goto', 'wanted', 'what', 'together'].includes(event.target.id),
        pressing = event.key === ' ' && event.target.tagName === 'BUTTON';
  if (event.ctrlKey || event.metaKey || event.altKey || byId('help').open || typing || pressing) return;
  const act = Object.prototype.hasOwnProperty.call(KEYS, event.key) ? KEYS[event.key] : null;
  if (!act) return;
  event.preventDefault();
  act(event);
});
const goToAddress = () => {
  const found = /^#turn=(\d{1,10})$/.exec(location.hash);
  page.go(found ? Number(found[1]) : 0, true);
};
addEventListener('hashchange', goToAddress);
goToAddress();
document.body.dataset.ready = '1';
