
// ---- The page: what is written, checked, run and stepped through. Texts of the modules and of programs are only ever
// text.

const MOST_SHOWN_TURNS = 100_000, SLICE = 4_000_000n, PIECE = 65536, SHOWN_OUTPUT = 1 << 20;
// A source of more characters isn't checked while it is written.
const MOST_CHECKED = 500_000, PAUSE = 400;

const held = id => byId(id).textContent;
const grouped = number => String(number).replace(/\B(?=(\d{3})+$)/g, ',');
const breath = () => new Promise(done => setTimeout(done));

class App {
  constructor(play, engine, kept) {
    Object.assign(this, {play, engine, kept, turn: 0, told: null, limit: MOST_SHOWN_TURNS});
    this.comments = listedComments();
    this.editor = new Editor(byId('editor'), () => this.edited());
    this.lessons = new LessonPane(byId('lessons'), kept.lessons, {
      go: (block, turn) => this.goInLesson(block, turn),
      begin: exercise => this.beginExercise(exercise),
      check: exercise => this.guarded(() => new Exercise(play, utf8(this.editor.text)).checks(exercise.checks)) ?? [],
    });
    this.bindActions();
    this.bindSteps();
    this.bindFiles();
    this.fillMenu();
    this.begin();
  }

  bindActions() {
    const on = (id, act) => byId(id).addEventListener('click', act);
    on('b-check', () => this.check());
    on('b-annotate', () => this.annotate());
    on('b-run', () => this.run());
    on('b-step', () => this.record());
    on('b-stop', () => this.stop());
    on('b-line', () => this.answer?.(byId('line').value + '\n'));
    on('b-eof', () => this.answer?.(null));
    on('b-link', () => this.share());
    on('b-image', () => this.save('program.img', this.subject.image));
    on('b-source', () => this.save('program.s', utf8(this.editor.text)));
    on('b-open', () => byId('file').click());
    on('b-theme', () => this.theme());
    on('b-lessons', () => this.showLessons(byId('lessons').hidden));
    on('b-help', () => byId('help').showModal());
    on('b-c', () => this.showC(byId('c-text').hidden));
    byId('line').addEventListener('keydown', event => {
      if (event.key === 'Enter') this.answer?.(byId('line').value + '\n');
    });
    byId('menu').addEventListener('change', () => this.choose(this.kept.programs[Number(byId('menu').value)]));
    byId('windows').addEventListener('change', () => this.windowsChanged());
    addEventListener('hashchange', () => this.begin());
    addEventListener('keydown', event => this.key(event));
  }

  bindSteps() {
    const on = (id, act) => byId(id).addEventListener('click', act);
    on('s-home', () => this.go(0));
    on('s-back', () => this.go(this.turn - 1));
    on('s-next', () => this.go(this.turn + 1));
    on('s-over', () => this.go(this.nextOfUser()));
    on('s-end', () => this.go(Infinity));
    on('b-all', () => this.showAll());
    on('b-back', () => this.hideAll());
    byId('slide').addEventListener('input', () => this.go(Number(byId('slide').value)));
  }

  bindFiles() {
    byId('file').addEventListener('change', event => {
      this.open(event.target.files[0]);
      event.target.value = '';
    });
    addEventListener('dragover', event => event.preventDefault());
    addEventListener('drop', event => {
      event.preventDefault();
      if (event.dataTransfer.files.length) this.open(event.dataTransfer.files[0]);
    });
  }

  key(event) {
    const acts = {Enter: () => this.run(), k: () => this.check(), i: () => this.annotate(), j: () => this.record()};
    if ((event.ctrlKey || event.metaKey) && acts[event.key]) {
      event.preventDefault();
      acts[event.key]();
      return;
    }
    if (/TEXTAREA|INPUT|SELECT/.test(event.target.tagName) || byId('help').open) return;
    if (event.key === 'Escape' && !byId('full').hidden) this.hideAll();
    if (event.key === '?') byId('help').showModal();
    else if (this.told && byId('full').hidden) this.stepKey(event);
  }

  stepKey(event) {
    const steps = {ArrowRight: this.turn + 1, ArrowLeft: this.turn - 1, Home: 0, End: Infinity, u: this.nextOfUser()};
    if (event.ctrlKey || event.metaKey || event.altKey || !(event.key in steps)) return;
    event.preventDefault();
    this.go(steps[event.key]);
  }

  fillMenu() {
    const groups = new Map();
    this.kept.programs.forEach((program, at) => {
      if (!groups.has(program.group)) {
        const group = byId('menu').appendChild(element('optgroup'));
        group.label = program.group;
        groups.set(program.group, group);
      }
      const option = groups.get(program.group).appendChild(element('option', '', program.title));
      option.value = at;
    });
  }

  // The program that the address names or holds, else the first one. It is never run by itself.
  async begin() {
    const [, kind, word] = /^#([ps])=(.*)$/.exec(location.hash) ?? [];
    if (kind === 's') return this.beginByLink(word);
    const found = this.kept.programs.findIndex(it => it.name === word);
    byId('menu').value = Math.max(0, found);
    this.choose(this.kept.programs[Math.max(0, found)]);
    if (kind && found < 0) this.end('no', 'There is no program of that name here; this is another one.');
  }

  async beginByLink(word) {
    try {
      const program = programOfLink(await textOfPacked(word));
      byId('menu').selectedIndex = -1;
      this.choose(program);
      this.end('', 'From a link: read it before you run it. It is not run yet.');
    } catch {
      if (!this.subject) {
        byId('menu').value = 0;
        this.choose(this.kept.programs[0]);
      }
      this.end('no', 'This link holds no program, or was cut; what you see isn\u2019t of it.');
    }
  }

  choose(program) {
    this.program = program;
    this.editor.readOnly = false;
    this.editor.text = program.source;
    byId('input').value = program.input ?? '';
    byId('windows').value = program.windows ?? 8;
    byId('c-text').replaceChildren(...(program.c ?? '').split('\n').map(line => element('div', '', line || ' ')));
    byId('b-c').hidden = !program.c;
    this.showC(Boolean(program.c));
    if (program.lesson !== undefined) {
      this.lessons.show(program.lesson);
      this.showLessons(true);
    }
    this.edited();
    this.check();
  }

  showC(is) {
    byId('c-text').hidden = !is;
    byId('b-c').setAttribute('aria-pressed', is);
  }

  showLessons(is) {
    byId('lessons').hidden = !is;
    byId('b-lessons').setAttribute('aria-pressed', is);
    document.body.classList.toggle('with-lessons', is);
    if (is && this.lessons.shown === undefined) this.lessons.show(0);
  }

  // Marks the line of C that a line of the source says it comes from.
  pointInC(line) {
    const of = line && this.editor.lines[line - 1].match(/! \w+\.c:(\d+)/), pane = byId('c-text');
    if (line && !of) return;
    pane.querySelector('.now')?.classList.remove('now');
    const row = of && pane.children[Number(of[1]) - 1];
    if (!row) return;
    row.classList.add('now');
    bringIntoView(pane, row);
  }

  // What was told is of an older text.
  edited() {
    this.stop();
    this.forget();
    this.subject = new SourceSubject(this.play, this.editor.text);
    this.end('', 'Not run yet.');
    clearTimeout(this.later);
    if (this.editor.text.length <= MOST_CHECKED) this.later = setTimeout(() => this.check(), PAUSE);
    else this.say('', 'A long text: press check to have it checked.');
  }

  forget() {
    this.told = null;
    this.showMachine(false);
    this.editor.point(0);
    this.pointInC(0);
    byId('output').textContent = byId('count').textContent = '';
  }

  showMachine(is) {
    byId('machine').hidden = !is;
    byId('hello').hidden = is;
    document.body.classList.toggle('stepping', is);
  }

  windowsChanged() {
    byId('windows').value = this.windows;
    this.stop();
    this.forget();
    this.end('', 'Not run yet.');
  }

  get windows() {
    const count = Math.round(Number(byId('windows').value)) || 8;
    return Math.min(32, Math.max(4, count));
  }

  get input() { return utf8(byId('input').value); }

  // Does something that calls the modules. Where one stops, it begins anew, and that is told; what was typed stays.
  guarded(act) {
    try {
      return act();
    } catch (error) {
      this.say('no', `This went beyond what the page can do: ${error.message}. What you typed is still there.`);
      this.play.begin();
      this.engine.begin();
      return undefined;
    }
  }

  say(kind, text) {
    byId('verdict').className = kind;
    byId('verdict').textContent = text;
  }

  end(kind, text, part = null) {
    byId('ending').className = kind;
    byId('ended').textContent = text;
    byId('meter').hidden = part === null;
    byId('spent').style.width = `${Math.min(100, 100 * (part ?? 0))}%`;
  }

  // Tells all faults, or the rule that is broken, or that it is accepted.
  check() {
    clearTimeout(this.later);
    const began = performance.now(), judged = this.guarded(() => this.subject.judged());
    byId('verdict').dataset.time = performance.now() - began;
    if (!judged) return false;
    this.accepted = judged.accepted;
    this.editor.mark(judged.faults);
    this.tellVerdict(judged);
    this.tellProblems(judged);
    byId('b-run').disabled = !judged.accepted;
    byId('b-run').title =
      judged.accepted ? 'runs it (Ctrl+Enter)' : 'it isn\u2019t accepted: step shows what it would do';
    byId('b-step').disabled = byId('b-image').disabled = !judged.accepted && !judged.rule;
    byId('b-annotate').disabled = !this.subject.isWritten || !judged.accepted && !judged.rule;
    byId('b-link').disabled = byId('b-source').disabled = !this.subject.isWritten;
    return judged.accepted;
  }

  // Writes the annotations that the source hasn't got, and tells what isn't shown of it. It can be undone.
  annotate() {
    this.check();
    if (byId('b-annotate').disabled) return;
    const before = this.editor.text, made = this.guarded(() => this.subject.annotated());
    if (!made) return;
    if (made.text !== null && made.text !== before) this.editor.replace(made.text);
    this.edited();
    this.check();
    this.tellNotes(made.notes, movedLines(before, this.editor.text));
    if (made.text === null) this.say('no', '\u2717 it can\u2019t be annotated: the note says why');
    else this.end('', made.text === before ? 'There is nothing to add.' : 'Annotated, and not run yet.');
  }

  // Notes stand below the faults, each a button that goes to its line.
  tellNotes(notes, lines) {
    const list = byId('problems'), box = list.querySelector('details');
    for (const {line, sentence} of notes) {
      const row = element('button'), at = lines[line - 1] ?? 1;
      row.append(element('b', '', `${at} note`), sentence);
      row.addEventListener('click', () => this.editor.goTo(at, 1));
      list.insertBefore(row, box);
    }
    if (notes.length) list.hidden = false;
  }

  // Whether it is there to be stepped through, though the verifier may refuse it: a lesson's program, and what is
  // written for an exercise that doesn't ask for more.
  get isForSteps() { return this.program?.lesson !== undefined || Boolean(this.program?.isForSteps); }

  tellVerdict({accepted, faults, rule}) {
    const count = faults.length, line = count ? faults[0].line : 0;
    if (accepted) this.say('ok', '\u2713 accepted: no rule is broken');
    else if (rule && this.isForSteps)
      this.say('quiet', `for stepping through, not for a host: rule ${rule} is broken at line ${line}`);
    else if (rule) this.say('no', `\u2717 refused by rule ${rule}, at line ${line}`);
    else this.say('no', `\u2717 ${plural(count, 'fault')}`);
  }

  // A fault is a button that goes to its place; behind a rule stands what is known of the word, folded in a lesson.
  tellProblems({accepted, faults, rule, why}) {
    const list = byId('problems'), box = element('details');
    list.hidden = accepted;
    list.replaceChildren(...faults.map(fault => {
      const row = element('button');
      row.append(element('b', '', `${fault.line}:${fault.column} ${fault.code}`), fault.sentence);
      row.addEventListener('click', () => this.editor.goTo(fault.line, fault.column));
      return row;
    }));
    if (!rule || !why) return;
    box.open = !this.isForSteps;
    box.append(element('summary', '', 'what is known there'), element('pre', '', why));
    list.append(box);
  }

  stop() {
    this.stopped = true;
    this.answer?.(null);
  }

  // Runs what is accepted, in slices, so that the page stays quick and the run can be given up.
  async run() {
    if (!this.check() || this.running) return;
    const run = this.guarded(() => new Session(this.engine, this.subject.image, this.windows));
    if (!run) return;
    this.forget();
    this.running = true;
    this.stopped = false;
    byId('b-stop').hidden = false;
    byId('b-run').disabled = true;
    try {
      await this.runToEnd(run);
    } catch (error) {
      this.end('no', `The run went beyond what the page can do: ${error.message}`);
      this.engine.begin();
    }
    byId('b-stop').hidden = true;
    byId('b-run').disabled = !this.accepted;
    this.running = false;
  }

  async runToEnd(run) {
    const began = performance.now(), talks = byId('talk').checked;
    let input = this.input, at = 0, count = 0, last = !talks, text = '';
    if (run.status !== OK) throw new Error(`status ${run.status}`);
    for (;;) {
      const piece = input.subarray(at, at + PIECE);
      const step = run.step(SLICE, piece, last && at + piece.length === input.length);
      at += step.read;
      count += step.bytes.length;
      if (text.length < SHOWN_OUTPUT) text += textOfBytes(step.bytes);
      if (step.status === WANTS && at < input.length) continue;
      this.showOutput(text, count);
      if (step.status === ENDED) {
        this.tellRun(step, run.budget, talks ? 0 : performance.now() - began, input.length - at);
        break;
      }
      this.end('busy', `running: ${this.turnsOf(step.turns, run.budget)}`, step.turns / run.budget);
      if (step.status === WANTS) {
        const more = await this.asked(step.turns, run.budget);
        last = more === null;
        [input, at] = [utf8(more ?? ''), 0];
      } else if (step.status !== FULL && step.status !== PAUSED) {
        throw new Error(`status ${step.status}`);
      }
      await breath();
      if (this.stopped) {
        this.end('no', `given up after ${this.turnsOf(step.turns, run.budget)}`, step.turns / run.budget);
        break;
      }
    }
    run.free();
  }

  turnsOf(turns, budget) { return `${grouped(turns)} of at most ${grouped(budget)} turns`; }

  tellRun({exit, turns}, budget, time, unread) {
    const speed = time > 200 ? `, ${(turns / time / 1000).toFixed(0)} million a second` : '';
    byId('ending').dataset.speed = turns / time / 1000;
    this.end(exit ? 'no' : 'ok', `exit word ${exit} after ${this.turnsOf(turns, budget)}${speed}` +
      (unread ? `; ${plural(unread, 'byte')} of input not read` : ''), turns / budget);
  }

  // A line for the program, or null where there is no more, or where the run is given up.
  asked(turns, budget) {
    const ask = byId('ask'), line = byId('line');
    this.end('busy', `waits for input after ${this.turnsOf(turns, budget)}`, turns / budget);
    ask.hidden = false;
    line.value = '';
    line.focus();
    return new Promise(done => {
      this.answer = more => {
        ask.hidden = true;
        this.answer = null;
        done(more);
      };
    });
  }

  showOutput(text, count) {
    byId('output').textContent = text;
    const told = count === 1 ? '1 byte' : `${grouped(count)} bytes`;
    byId('count').textContent = count ? told + (count > text.length ? ', the first shown' : '') : '';
  }

  // Records the turns, of any image, to be stepped through.
  record() {
    this.stop();
    this.check();
    const {windows, input, limit, comments} = this;
    if (!this.subject.image) return false;
    const began = performance.now();
    const made = this.guarded(() => recorded(this.subject, {windows, limit, input, comments}));
    if (!made) return false;
    this.data = made.data;
    this.lineAt = made.lineAt;
    this.told = made.run;
    byId('windows-pane').replaceChildren();
    this.pane = new WindowsPane(byId('windows-pane'), this.told, new Story(this.told), turn => this.go(turn));
    byId('slide').max = this.told.turns;
    this.showMachine(true);
    this.go(Math.min(1, this.told.turns));
    byId('machine').dataset.time = performance.now() - began;
    byId('s-next').focus({preventScroll: true});
    return true;
  }

  nextOfUser() {
    const {told, turn} = this;
    let next = turn + 1;
    while (next < told.turns && told.isSupervisor(next - 1)) next++;
    return next;
  }

  // Shows a turn. In a handler the line stays that of the program's last turn.
  go(turn) {
    const run = this.told;
    this.turn = Math.max(0, Math.min(run.turns, turn));
    byId('slide').value = this.turn;
    byId('turn').textContent = `turn ${grouped(this.turn)} of ${grouped(run.turns)}${run.ended ? '' : ' (limit)'}`;
    const isSupervisor = this.turn > 0 && run.isSupervisor(this.turn - 1);
    const comment = isSupervisor ? run.code.get(run.pc[this.turn])?.comment ?? '' : '';
    let user = this.turn;
    while (user > 0 && run.isSupervisor(user - 1)) user--;
    const line = user ? this.lineAt.get(run.pc[user]) ?? 0 : 0;
    this.editor.point(line);
    this.pointInC(line);
    this.pane.show(this.turn, comment);
    scrollPanes();
    const count = countUpTo(run.outputTurns, this.turn);
    this.showOutput(textOfBytes(Uint8Array.from(run.output.slice(0, Math.min(count, SHOWN_OUTPUT)))), count);
    this.showEnd();
  }

  showEnd() {
    const run = this.told, budget = run.functions[0]?.budget ?? 0, exit = run.eventValue[this.turn];
    const isEnd = this.turn > 0 && run.event[this.turn] === EXITED;
    const part = run.accepted && budget ? this.turn / budget : null;
    const of = part === null ? `${grouped(this.turn)} turns` : this.turnsOf(this.turn, budget);
    if (isEnd) this.end(exit ? 'no' : 'ok', `exit word ${exit} after ${of}`, part);
    else this.end('', part === null ? `${of} made; it isn\u2019t accepted, so nothing is promised of its end` :
      `${of} made`, part);
  }

  // A turn of a lesson's program, which is put into the editor where another one stands there.
  goInLesson({program, windows, input}, turn) {
    const found = this.kept.programs.find(it => it.name === program);
    const isThere = this.editor.text === found.source && this.windows === windows && byId('input').value === input;
    if (!isThere || !this.told) {
      byId('menu').value = this.kept.programs.indexOf(found);
      const {lesson, ...other} = found;
      this.choose({...other, windows, input});
      this.program = found;
      if (!this.record()) return;
    }
    this.go(turn);
    byId('machine').scrollIntoView({block: 'nearest'});
  }

  beginExercise({name, start, checks}) {
    byId('menu').selectedIndex = -1;
    this.choose({title: name, name, source: start, input: '', isForSteps: !checks.some(it => it.accepted)});
    this.editor.area.focus();
  }

  // The page of `inspect page`, with the data of this run.
  showAll() {
    const [before, between, after] = this.kept.template;
    byId('frame').srcdoc = before + this.data + between + after;
    byId('full').hidden = false;
    byId('frame').focus();
  }

  hideAll() {
    byId('full').hidden = true;
    byId('frame').removeAttribute('srcdoc');
    byId('b-all').focus();
  }

  async open(file) {
    if (!file) return;
    if (file.size > MOST_FILE) {
      this.end('no', `${file.name} has more than ${grouped(MOST_FILE)} bytes, so it wasn\u2019t opened.`);
      return;
    }
    const bytes = new Uint8Array(await file.arrayBuffer());
    const isImage = textOfBytes(bytes.subarray(0, IMAGE_MAGIC.length)) === IMAGE_MAGIC;
    if (isImage) this.openImage(file.name, bytes);
    else this.openSource(file.name, bytes);
  }

  openImage(name, bytes) {
    const subject = this.guarded(() => new ImageSubject(this.play, bytes));
    if (!subject) return;
    if (!subject.isImage) {
      this.end('no', `${name} begins as an image and is none, so it wasn\u2019t opened.`);
      return;
    }
    byId('menu').selectedIndex = -1;
    this.choose({title: name, source: subject.text, input: byId('input').value});
    clearTimeout(this.later);
    this.editor.readOnly = true;
    this.subject = subject;
    this.check();
    this.end('', `${name}: an image, of which the code is listed. Not run yet.`);
  }

  openSource(name, bytes) {
    let text;
    try {
      text = new TextDecoder('utf-8', {fatal: true}).decode(bytes);
    } catch {
      this.end('no', `${name} is neither an image nor a text, so it wasn\u2019t opened.`);
      return;
    }
    byId('menu').selectedIndex = -1;
    this.choose({title: name, source: text, input: byId('input').value});
    this.end('', `${name} is opened. Not run yet.`);
  }

  async share() {
    const text = JSON.stringify({s: this.editor.text, i: byId('input').value, w: this.windows});
    if (text.length > MOST_LINK) {
      this.end('no', 'This is too long for a link; download the source.');
      return;
    }
    history.replaceState(null, '', `#s=${await packedText(text)}`);
    try {
      await navigator.clipboard.writeText(location.href);
      this.end('ok', 'The link is copied. It holds source, input and windows; whoever opens it runs nothing by that.');
    } catch {
      this.end('ok', 'The link stands in the address bar. It holds source, input and windows.');
    }
  }

  save(name, bytes) {
    if (!bytes) return;
    const link = element('a');
    link.href = URL.createObjectURL(new Blob([bytes]));
    link.download = name;
    link.click();
    setTimeout(() => URL.revokeObjectURL(link.href), 1000);
  }

  theme() {
    const root = document.documentElement;
    const isDark = root.dataset.theme ? root.dataset.theme === 'dark' :
      matchMedia('(prefers-color-scheme: dark)').matches;
    root.dataset.theme = isDark ? 'light' : 'dark';
    byId('b-theme').textContent = isDark ? 'dark' : 'light';
  }
}

// What a browser lacks, in words, or an empty text.
function lacking() {
  const needs = {'WebAssembly': globalThis.WebAssembly, 'DecompressionStream': globalThis.DecompressionStream,
    'BigInt in memory': DataView.prototype.setBigUint64};
  return Object.keys(needs).filter(it => !needs[it]).join(', ');
}

async function start() {
  const verdict = byId('verdict'), lacks = lacking();
  try {
    if (lacks) throw new Error(`this browser lacks ${lacks}; a newer one may have it`);
    const [play, engine] = await Promise.all(['module-play', 'module-engine']
      .map(async id => Module.of(await unpacked(held(id)))));
    const kept = JSON.parse(new TextDecoder().decode(await unpacked(held('kept'))));
    const differs = selfTest(play, engine, kept.stored);
    if (differs.length) throw new Error(`the self-test found that this differs: ${differs.join(', ')}`);
    window.app = new App(play, engine, kept);
    document.body.dataset.ready = '1';
  } catch (error) {
    verdict.className = 'no';
    verdict.textContent = `This page doesn\u2019t go on: ${error.message}`;
    for (const it of document.querySelectorAll('button, textarea, input, select')) it.disabled = true;
    document.body.dataset.failed = '1';
  }
}

start();
