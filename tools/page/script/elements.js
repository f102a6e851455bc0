
// ---- Elements, and words in hexadecimal. No markup is ever made of text.
const byId = id => document.getElementById(id);
const hex = (word, digits = 8) => (word >>> 0).toString(16).toUpperCase().padStart(digits, '0');
const fromHex = text => parseInt(text, 16) >>> 0;
const bytesOf = text => Uint8Array.from(text.match(/../g) || [], fromHex);
const textOf = text => new TextDecoder().decode(bytesOf(text));
const isGraphic = byte => byte >= 32 && byte < 127;

function element(tag, className = '', text = undefined) {
  const made = document.createElement(tag);
  if (className) made.className = className;
  if (text !== undefined) made.textContent = text;
  return made;
}

function drawn(tag, attributes = {}, text = undefined) {
  const made = document.createElementNS('http://www.w3.org/2000/svg', tag);
  for (const name of Object.keys(attributes)) made.setAttribute(name, attributes[name]);
  if (text !== undefined) made.textContent = text;
  return made;
}

// Panes that are to scroll, once all of a turn is written: what is read between two writes lets the browser lay out the
// page again.
const scrolls = [];

// Lets a pane scroll where the row isn't well within it.
function bringIntoView(pane, row) {
  if (row) scrolls.push({pane, row});
}

function scrollTop({pane, row}) {
  const top = row.offsetTop, height = pane.clientHeight, now = pane.scrollTop;
  return top < now + 40 || top > now + height - 60 ? top - (height - row.offsetHeight) / 2 : now;
}

function scrollPanes() {
  const tops = scrolls.map(scrollTop);
  scrolls.forEach(({pane}, at) => {
    pane.scrollTop = tops[at];
  });
  scrolls.length = 0;
}
