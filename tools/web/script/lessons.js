
// ---- The lessons of the course, and their exercises, which are checked.

const KEPT = 'geyserpan.exercises';

// What is kept in this browser; where it keeps nothing, it is kept as long as the page is open.
class Progress {
  constructor() {
    try {
      this.done = new Set(JSON.parse(localStorage.getItem(KEPT) ?? '[]').map(String));
    } catch {
      this.done = new Set();
    }
  }

  add(name) {
    this.done.add(name);
    try {
      localStorage.setItem(KEPT, JSON.stringify([...this.done]));
    } catch { /* it is kept no longer than the page is open */ }
  }
}

// Text with `code`, **strong words**, *terms* and the words of links, into an element.
function tellInline(host, text) {
  for (const [whole, code, strong, term, words, plain] of
    text.matchAll(/`([^`]+)`|\*\*([^*]+)\*\*|\*(\w[^*]*)\*|\[([^\]]+)\]\([^)]*\)|([^`*[]+|[`*[])/g)) {
    if (code !== undefined) host.append(element('code', '', code));
    else if (strong !== undefined) host.append(element('b', '', strong));
    else if (term !== undefined) host.append(element('em', '', term));
    else if (words !== undefined) tellInline(host, words);
    else host.append(plain ?? whole);
  }
  return host;
}

function told(tag, text) { return tellInline(element(tag), text); }

function listOf(block) {
  const list = element(block.kind);
  for (const item of block.items) list.append(told('li', item));
  return list;
}

function tableOf(block) {
  const box = element('div', 'wide'), table = box.appendChild(element('table'));
  table.setAttribute('aria-label', block.rows[0].join(', '));
  block.rows.forEach((cells, at) => {
    const row = table.insertRow();
    for (const cell of cells) row.append(told(at ? 'td' : 'th', cell));
  });
  return box;
}

class LessonPane {
  // `go` shows a turn of a program, `begin` puts an exercise's text into the editor, `check` gives what a program's
  // checks tell.
  constructor(host, lessons, {go, begin, check}) {
    Object.assign(this, {host, lessons, go, begin, check, progress: new Progress()});
    this.select = byId('lesson');
    this.body = byId('lesson-text');
    lessons.forEach((lesson, at) => {
      const option = this.select.appendChild(element('option'));
      option.value = at;
    });
    this.select.addEventListener('change', () => this.show(Number(this.select.value)));
    this.tellProgress();
  }

  tellProgress() {
    const {done} = this.progress, of = this.lessons.filter(it => done.has(it.exercise.name)).length;
    this.lessons.forEach(({title, minutes, exercise}, at) => {
      this.select.options[at].textContent = `${done.has(exercise.name) ? '\u2713 ' : ''}${title} (${minutes} minutes)`;
    });
    byId('progress').textContent = `${of} of ${this.lessons.length} exercises done`;
  }

  show(number) {
    const lesson = this.lessons[number];
    this.shown = number;
    this.select.value = number;
    this.body.replaceChildren(...lesson.blocks.map(it => this.made(it)), this.exercise(lesson.exercise));
    this.body.scrollTop = 0;
  }

  made(block) {
    switch (block.kind) {
      case 'h': return element('h3', '', block.text);
      case 'p': return told('p', block.text);
      case 'code': return element('pre', '', block.text);
      case 'shell': return this.folded('in a shell', [element('pre', '', block.text)]);
      case 'ul':
      case 'ol': return listOf(block);
      case 'table': return tableOf(block);
      case 'turns': return this.turns(block);
      default: return this.folded('answers', block.blocks.map(it => this.made(it)));
    }
  }

  folded(title, parts) {
    const box = element('details');
    box.append(element('summary', '', title), ...parts);
    return box;
  }

  // The turns to look at: each is shown by its button.
  turns(block) {
    const box = tableOf(block);
    for (const row of [...box.querySelectorAll('tr')].slice(1)) {
      const cell = row.cells[0], turn = Number(cell.textContent), button = element('button', '', cell.textContent);
      button.title = `shows turn ${turn}`;
      button.setAttribute('aria-label', `show turn ${turn}`);
      button.addEventListener('click', () => this.go(block, turn));
      cell.replaceChildren(button);
    }
    return box;
  }

  exercise(exercise) {
    const box = element('section', 'exercise'), found = element('ul', 'found');
    const begin = element('button', '', 'begin'), check = element('button', 'main', 'check my program');
    begin.addEventListener('click', () => this.begin(exercise));
    check.addEventListener('click', () => this.tell(exercise, found));
    found.setAttribute('role', 'status');
    found.setAttribute('aria-label', 'what the check says');
    box.append(element('h3', '', 'Exercise'), told('p', exercise.text), begin, ' ', check, found,
      this.folded('one way to do it', [element('pre', '', exercise.solution)]));
    return box;
  }

  tell(exercise, found) {
    const said = this.check(exercise), isDone = said.every(it => it.holds);
    found.replaceChildren(...said.map(({holds, text}) =>
      element('li', holds ? 'ok' : 'no', `${holds ? '\u2713' : '\u2717'} ${text}`)));
    if (!isDone) return;
    this.progress.add(exercise.name);
    this.tellProgress();
    found.append(element('li', 'ok', 'Done. This browser keeps it.'));
  }
}
