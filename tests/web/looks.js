// What a test does with the page, and sees of it.
({
  text(id) { return document.getElementById(id).textContent; },
  shown(id) { return !document.getElementById(id).closest('[hidden]'); },
  press(id) { document.getElementById(id).click(); },
  set(id, value, event = 'input') {
    const field = document.getElementById(id);
    field.value = value;
    field.dispatchEvent(new Event(event, {bubbles: true}));
  },
  write(text) { this.set('source', text); },
  faults() {
    return [...document.querySelectorAll('#problems > button')].map(it => it.textContent);
  },
  rows() { return [...document.querySelectorAll('.rows .row')].map(it => it.textContent); },
  numbers() { return [...document.querySelectorAll('.gutter .number')].map(it => Number(it.textContent)); },
  marked() {
    const numbers = [...document.querySelectorAll('.gutter .number.fault')];
    return numbers.map(it => Number(it.textContent));
  },
  // What is told of a line that is pointed at, of those that are seen.
  hint(line) {
    const area = document.querySelector('#source'), {left, top} = area.getBoundingClientRect();
    area.dispatchEvent(new MouseEvent('mousemove', {clientX: left + 20, clientY: top + 21 * line - 10}));
    return area.title;
  },
  // The line of the turn, and its text.
  now() {
    const number = document.querySelector('.gutter .number.now'), row = document.querySelector('.rows .row.now');
    return number && [Number(number.textContent), row.textContent];
  },
  nowInC() { return document.querySelector('#c-text .now')?.textContent ?? null; },
  say() { return document.querySelector('#windows-pane .say').textContent; },
  registers() {
    return Object.fromEntries([...document.querySelectorAll('#windows-pane .regs td')].map(it =>
      [it.dataset.r, it.lastElementChild.textContent]));
  },
  frame() { return document.getElementById('frame').srcdoc; },
  becameMarkup() {
    return document.querySelectorAll('img, main script, main iframe').length > 0 || document.title === '1';
  },
  lessonButtons() { return [...document.querySelectorAll('#lesson-text td button')].map(it => it.textContent); },
  pressTurn(number) { document.querySelectorAll('#lesson-text td button')[number].click(); },
  pressExercise(name) {
    [...document.querySelectorAll('.exercise > button')].find(it => it.textContent === name).click();
  },
  found() { return [...document.querySelectorAll('.found li')].map(it => it.textContent); },
  drop(name, bytes) {
    const transfer = new DataTransfer();
    transfer.items.add(new File([Uint8Array.from(bytes)], name));
    document.body.dispatchEvent(new DragEvent('drop', {dataTransfer: transfer, bubbles: true, cancelable: true}));
  },
  // Parts that lie outside of the window from left to right, or that text runs out of.
  tooWide(selectors) {
    const width = document.documentElement.clientWidth;
    return selectors.filter(it => [...document.querySelectorAll(it)].some(part => {
      const box = part.getBoundingClientRect();
      return box.width > 0 && (box.right > width + 1 || box.left < -1);
    }));
  },
  scrollsAcross() { return document.documentElement.scrollWidth > document.documentElement.clientWidth; },
  // What has no room: a part that is shown and has no height or width.
  flat(selectors) {
    return selectors.filter(it => {
      const box = document.querySelector(it).getBoundingClientRect();
      return box.width < 20 || box.height < 10;
    });
  },
  // Parts that lie one over the other, in pairs.
  overlapping(selectors) {
    const boxes = selectors.map(it => [it, document.querySelector(it).getBoundingClientRect()]);
    return boxes.flatMap(([name, it], at) => boxes.slice(at + 1)
      .filter(([, other]) => Math.min(it.right, other.right) - Math.max(it.left, other.left) > 1 &&
        Math.min(it.bottom, other.bottom) - Math.max(it.top, other.top) > 1)
      .map(([other]) => `${name} and ${other}`));
  },
  // Texts that their button or label cuts off.
  cut() {
    return [...document.querySelectorAll('header button, header label, .steps button')]
      .filter(it => it.offsetParent && it.scrollWidth > it.clientWidth + 1).map(it => it.textContent);
  },
  // The least contrast of the texts of some parts with what lies behind them.
  contrast(selectors) {
    const numbers = text => text.match(/[\d.]+/g).map(Number);
    const light = ([red, green, blue]) => [red, green, blue].map(it => it / 255)
      .map(it => it <= 0.03928 ? it / 12.92 : ((it + 0.055) / 1.055) ** 2.4)
      .reduce((sum, it, at) => sum + it * [0.2126, 0.7152, 0.0722][at], 0);
    const behind = part => {
      for (let it = part; it; it = it.parentElement) {
        const colour = numbers(getComputedStyle(it).backgroundColor);
        if (colour.length === 3 || colour[3] === 1) return colour;
      }
      return [255, 255, 255];
    };
    const parts = selectors.flatMap(it => [...document.querySelectorAll(it)]).filter(it => it.offsetParent);
    return Math.min(...parts.map(part => {
      const [one, other] = [numbers(getComputedStyle(part).color), behind(part)].map(light);
      return (Math.max(one, other) + 0.05) / (Math.min(one, other) + 0.05);
    }));
  },
})
