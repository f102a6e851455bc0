// What the suite page asks of a page in a browser: what is seen, by the texts of its elements, and what a user does.
({
  one : (selector, within = document) => within.querySelector(selector),
  all : (selector, within = document) => [...within.querySelectorAll(selector)],
  text : element => element ? element.textContent : '',
  // The text behind a name, without the mark of what changed.
  behind(element, name) { return this.text(element).slice(name.length).replace('\u25C4', '').trim(); },
  table(selector, key, value) { return Object.fromEntries(this.all(selector).map(it => [key(it), value(it)])); },
  isShown : selector => getComputedStyle(document.querySelector(selector)).display !== 'none',

  goTo(turn) {
    const box = this.one('#goto');
    box.value = turn;
    box.dispatchEvent(new Event('change'));
  },

  see(turn) {
    if (turn !== undefined) this.goTo(turn);
    return {...this.seeCode(), ...this.seeState(), ...this.seeMemory() };
  },

  seeCode() {
    return {
      say : this.text(this.one('#say')),
      goto : this.one('#goto').value,
      struck : Boolean(this.one('.row.now.an')),
      rows : this.all('.row.now').map(row => row.dataset.a + ' ' + this.text(this.one('.tx', row))),
      signs : this.text(this.one('.row.now .g')),
      out : this.text(this.one('#out')),
      fresh : this.text(this.one('#out .new')),
      outn : this.text(this.one('#outn')),
      fuel : this.text(this.one('#fuelsay')),
      traps : this.text(this.one('#traps .cur')),
    };
  },

  seeState() {
    const first = this.one('#first'), state = name => this.one('.state .' + name, first);
    return {
      regs : this.table('#first .regs td', cell => cell.dataset.r, cell => this.text(cell.lastChild)),
      changed : this.all('#first .regs td.ch').map(cell => cell.dataset.r),
      icc : this.all('.icc .bit.set', first).map(this.text).join(''),
      psr : this.text(state('psr')).slice(-8),
      y : this.behind(state('y'), 'Y'),
      wim : this.all('.state .wim .bit.set', first).map(bit => Number(bit.textContent)),
      mask : this.behind(state('wim'), 'WIM'),
      pc : this.behind(state('pc'), 'PC'),
      npc : this.behind(state('npc'), 'nPC'),
      fault : this.behind(state('fs'), 'fault status'),
      cwp : this.text(this.one('.cwp', first)),
      mode : this.text(this.one('.mode', first)),
      frames : this.all('#first .open li').map(row => this.text(row).replace(/ +/g, ' ')),
    };
  },

  seeMemory() {
    return {
      mem : this.table('#mem td[data-m]', cell => cell.dataset.m, cell => this.text(cell.lastChild)),
      tiles : this.table('.tile', tile => tile.title.split(' ').pop(), this.text),
      walk :
        this.all('#walk tr').map(row => [...row.cells].map(this.text).filter(it => it).join(' ').replace(/ +/g, ' ')),
    };
  },

  // All that is written on the page, that of the ring too.
  written() {
    return [ document.body.innerText, ...this.all('#say, #first .circle text').map(this.text) ].join(' ');
  },

  // What is seen, to be compared with the same turn reached another way.
  picture() {
    return document.body.innerText + this.one('#first .circle').outerHTML + this.all('.now').map(row => row.dataset.a);
  },

  sourceRows() {
    return this.all('#src .row')
      .map(row => [row.dataset.a || '', this.text(this.one('.tx', row)) + this.text(this.one('.co', row))]);
  },

  reason() {
    const box = this.one('#code .why');
    return box && [
      box.previousSibling.dataset.a, this.text(this.one('summary', box)), this.text(this.one('pre', box)),
      box.checkVisibility() && box.open
    ];
  },

  bothTurns() {
    return this.all('#first h2.run, #second h2.run').map(it => Number(/turn (\d+)/.exec(it.textContent)[1]));
  },
  comparison() {
    return this.table('#compare tr', row => this.text(row.cells[0]), row => [...row.cells].slice(1).map(this.text));
  },

  choose(id, value) {
    const list = this.one('#' + id);
    list.value = value;
    list.dispatchEvent(new Event('change'));
  },

  // Asks what is to be found, and leaves the field, so that keys are the page's.
  ask(what, wanted) {
    this.choose('what', what);
    this.one('#wanted').value = wanted;
    document.activeElement.blur();
  },

  slideTo(turn) {
    const slider = this.one('#slide');
    slider.value = turn;
    slider.dispatchEvent(new Event('input'));
  },

  // What a colour tells, as a sign: of words that changed, rows, the marked window, stored frames, pages.
  signs() {
    return {
      changed : getComputedStyle(this.one('#mem td.ch'), '::after').content,
      rows : this.all('.row.now, .row.nx, .row.nn, .row.tr').map(row => this.text(this.one('.g', row))).sort(),
      masks : this.all('#first .circle text').filter(it => it.textContent === 'WIM').length,
      stored : this.all('#first .open li.out').every(row => row.textContent.includes('STORED')),
      pages : this.all('.tile.R, .tile.M').every(this.text),
    };
  },

  addScript() {
    const script = document.createElement('script');
    script.textContent = 'document.title = "a script ran"';
    document.body.append(script);
  },

  addImage() {
    const image = document.createElement('img');
    image.onerror = () => {
      document.title = 'refused';
    };
    image.onload = () => {
      document.title = 'let in';
    };
    image.src = 'data:image/gif;base64,R0lGODlhAQABAAAAACw=';
    document.body.append(image);
  },

  // Whether markup of the image's bytes became elements, or did anything.
  becameMarkup() {
    return document.images.length > 0 || document.scripts.length !== 4 || !document.title.startsWith('Geyserpan: ');
  },

  scrolls() {
    const root = document.documentElement;
    return root.scrollHeight > innerHeight || root.scrollWidth > innerWidth;
  },

  // Parts that aren't wholly on the screen, or next to nothing of which is.
  cutOff(parts) {
    return parts.filter(selector => {
      const part = this.one(selector), box = part.getBoundingClientRect();
      return !part.hidden &&
        !(box.width > 60 && box.height > 8 && box.bottom <= innerHeight + 1 && box.right <= innerWidth + 1);
    });
  },

  // Of parts that stand one below the other: those without room or beyond the edge, and those that overlap.
  illStacked(parts) {
    const shown = parts.map(name => [name, this.one(name)]).filter(([, part]) => part.checkVisibility())
                    .map(([name, part]) => [name, part.getBoundingClientRect()]);
    const misfits = shown.filter(([, box]) => box.height < 14 || box.width < 60 || box.right > innerWidth + 1);
    const covered = shown.flatMap(([name, box], at) => shown.slice(at + 1)
      .filter(([, other]) => Math.min(box.right, other.right) - Math.max(box.left, other.left) > 1 &&
        Math.min(box.bottom, other.bottom) - Math.max(box.top, other.top) > 1)
      .map(([other]) => `${name} and ${other}`));
    return [...misfits.map(([name]) => name), ...covered];
  },

  // Tables that reach out of their section.
  tooWide(tables) {
    return tables.filter(selector => {
      const table = this.one(selector);
      const out = table.getBoundingClientRect().right > table.closest('section').getBoundingClientRect().right + 1;
      return out || table.scrollWidth > table.clientWidth + 1;
    });
  },

  // The pixels of an element's letters, with the zoom of all that it stands in.
  sizeOf(element) {
    let size = parseFloat(getComputedStyle(element).fontSize);
    for (let it = element; it; it = it.parentElement) size *= Number(getComputedStyle(it).zoom) || 1;
    return size;
  },

  withText(selector) { return this.all(selector).filter(it => it.offsetParent && it.textContent.trim()); },
  leastLetters(selector) { return Math.min(...this.withText(selector).map(this.sizeOf)); },
  greatestLetters(selector) { return Math.max(...this.withText(selector).map(this.sizeOf)); },

  // Milliseconds of a step, and of a jump from one end to the other, each laid out.
  stepTime() {
    const start = performance.now();
    for (let count = 0; count < 100; count++) this.one('#b-next').click();
    return (performance.now() - start) / 100;
  },

  jumpTime(last) {
    const start = performance.now();
    for (let count = 0; count < 20; count++) {
      this.goTo(7);
      this.goTo(last - 7);
    }
    return (performance.now() - start) / 40;
  },

  loadTime : () => performance.getEntriesByType('navigation')[0].domComplete,
})
