
// ---- The editor: a text area over the rows that are seen, in colours, with the lines' numbers, faults and the turn's
// line. Of a long source no more rows are made than the window has.

const PART = new RegExp([
  '(!.*)', '(\\.[A-Za-z_][\\w.]*)', '([A-Za-z_][\\w.]*\\s*:)', '(%[a-z]+\\d*)', '("(?:[^"\\\\]|\\\\.)*"?)',
  '(-?\\b(?:0x[0-9A-Fa-f]+|\\d+)\\b)', '([A-Za-z_][\\w.]*)'
].join('|'), 'g');
// The class of each part: comment, directive, label, register, text, number, name.
const CLASSES = ['', 'no', 'di', 'la', 're', 'st', 'nu', 'na'];
const DIRECTIVE = 2, NAME = 7;
const ROW = 21, TAB = '    ';
// A text with a longer line, or of more characters, is shown by the text area itself, in one colour.
const LONGEST_ROW = 2000, MOST_COLOURED = 2_000_000;

// A line of source in parts, each with its class; of a statement the first name is its own.
function colour(row, line) {
  let at = 0, isNamed = false;
  for (const found of line.matchAll(PART)) {
    const kind = found.findIndex((it, group) => group > 0 && it !== undefined);
    if (found.index > at) row.append(line.slice(at, found.index));
    row.append(element('span', kind === NAME && !isNamed ? 'mn' : CLASSES[kind], found[0]));
    isNamed ||= kind === NAME || kind === DIRECTIVE;
    at = found.index + found[0].length;
  }
  if (at < line.length) row.append(line.slice(at));
}

class Editor {
  constructor(host, changed) {
    this.area = host.querySelector('textarea');
    this.rows = host.querySelector('.rows');
    this.gutter = host.querySelector('.gutter');
    this.host = host;
    this.lines = [];
    this.faults = new Map();
    this.now = 0;
    this.area.addEventListener('input', () => {
      this.show();
      changed();
    });
    this.area.addEventListener('keydown', event => this.key(event));
    this.area.addEventListener('scroll', () => this.draw());
    this.area.addEventListener('mousemove', event => this.hint(event));
    new ResizeObserver(() => this.draw()).observe(this.area);
  }

  get text() { return this.area.value; }

  set text(text) {
    this.area.value = text;
    this.area.scrollTop = this.area.scrollLeft = 0;
    this.show();
  }

  // Writes another text in the place of this one, as if it were typed, so that it can be undone.
  replace(text) {
    const {scrollTop} = this.area;
    this.area.focus({preventScroll: true});
    this.area.select();
    if (!document.execCommand('insertText', false, text) || this.text !== text) this.text = text;
    this.area.setSelectionRange(0, 0);
    this.area.scrollTop = scrollTop;
  }

  set readOnly(is) { this.area.readOnly = is; }

  // Tab writes blanks; Escape and then Tab leaves the editor.
  key(event) {
    if (event.key === 'Escape') {
      this.isLeaving = true;
    } else if (event.key === 'Tab' && !event.shiftKey && !this.isLeaving && !this.area.readOnly) {
      event.preventDefault();
      document.execCommand('insertText', false, TAB);
    } else {
      this.isLeaving = false;
    }
  }

  show() {
    const {text} = this;
    this.lines = text.split('\n');
    const isPlain = text.length > MOST_COLOURED || this.lines.some(it => it.length > LONGEST_ROW);
    this.host.classList.toggle('plain', isPlain);
    this.isPlain = isPlain;
    this.gutter.style.width = `${Math.max(3, String(this.lines.length).length) + 2.5}ch`;
    this.draw();
  }

  // Makes the rows that are seen.
  draw() {
    const {area} = this, first = Math.floor(area.scrollTop / ROW), count = Math.ceil(area.clientHeight / ROW) + 1;
    const rows = document.createDocumentFragment(), numbers = document.createDocumentFragment();
    const last = Math.min(this.lines.length, first + count);
    for (let at = first; at < last; at++) {
      const fault = this.faults.has(at + 1) ? ' fault' : '', now = at + 1 === this.now ? ' now' : '';
      numbers.append(element('div', 'number' + fault + now, String(at + 1)));
      const row = rows.appendChild(element('div', 'row' + fault + now));
      if (!this.isPlain) colour(row, this.lines[at]);
    }
    const down = first * ROW - area.scrollTop;
    this.rows.replaceChildren(rows);
    this.gutter.firstElementChild.replaceChildren(numbers);
    this.rows.style.transform = `translate(${-area.scrollLeft}px, ${down}px)`;
    this.gutter.firstElementChild.style.transform = `translateY(${down}px)`;
  }

  // Marks the lines of faults.
  mark(faults) {
    this.faults = new Map();
    for (const fault of faults) {
      const sentence = `${fault.code}: ${fault.sentence}`, before = this.faults.get(fault.line);
      this.faults.set(fault.line, before ? `${before}\n${sentence}` : sentence);
    }
    this.draw();
  }

  // What is told of the line that is pointed at: its faults, else all of it where it goes on behind the edge.
  hint(event) {
    const line = Math.floor((event.offsetY + this.area.scrollTop) / ROW) + 1;
    this.area.title = this.faults.get(line) ?? (this.isCut(line) ? this.lines[line - 1].trim() : '');
  }

  // Whether a line that is seen goes on behind the right edge.
  isCut(line) {
    const row = this.rows.children[line - 1 - Math.floor(this.area.scrollTop / ROW)], range = document.createRange();
    if (!row) return false;
    range.selectNodeContents(row);
    return range.getBoundingClientRect().right > this.area.getBoundingClientRect().right;
  }

  // The line of the turn that is shown, 0 for none.
  point(line) {
    this.now = line;
    if (line) this.reach(line);
    this.draw();
  }

  // Scrolls where a line isn't well within what is seen.
  reach(line) {
    const {area} = this, top = (line - 1) * ROW, height = area.clientHeight;
    if (top < area.scrollTop + ROW || top > area.scrollTop + height - 3 * ROW)
      area.scrollTop = Math.max(0, top - height / 2);
  }

  goTo(line, column) {
    let start = column - 1;
    for (let at = 0; at < line - 1; at++) start += this.lines[at].length + 1;
    this.area.focus({preventScroll: true});
    this.area.setSelectionRange(start, start);
    this.reach(line);
    this.draw();
  }
}
