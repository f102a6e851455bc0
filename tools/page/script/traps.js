
// ---- Traps of the run, and what it put out so far.
const SHOWN_TRAPS = 300, SHOWN_BYTES = 400;
// So few traps leave room to more rows of memory.
const FEW_TRAPS = 5;

class TrapsPane {
  constructor(run, story, go) {
    this.run = run;
    this.traps = story.traps;
    this.go = go;
    this.from = -1;
  }

  // Of many traps those about this turn.
  list(from) {
    if (from === this.from) return;
    this.from = from;
    this.rows = this.traps.slice(from, from + SHOWN_TRAPS).map(turn => {
      const {run} = this, type = run.eventValue[turn];
      const row = element('div', '',
        String(turn).padStart(6) + ' ' + hex(type, 2) + ' ' + run.trapName(type).padEnd(23) + ' ' +
          hex(run.pc[turn], 5) + ' \u2192 ' + hex(run.pc[turn + 1]));
      row.addEventListener('click', () => this.go(turn));
      return row;
    });
    byId('traps').replaceChildren(...this.rows);
  }

  show(turn) {
    const {traps} = this, made = countUpTo(traps, turn), pane = byId('traps');
    this.list(Math.max(0, Math.min(made - 100, traps.length - SHOWN_TRAPS)));
    this.rows.forEach((row, at) => {
      row.className = this.from + at === made - 1 ? 'cur' : this.from + at >= made ? 'late' : '';
    });
    const row = this.rows[made - 1 - this.from];
    bringIntoView(pane, row || this.rows[0]);
    byId('trapn').textContent = made + ' of ' + traps.length + ' so far';
  }
}

const shownByte = byte => byte === 10 ? '\\n\n' :
  byte === 92                         ? '\\\\' :
  isGraphic(byte)                     ? String.fromCharCode(byte) :
                                        '\\x' + hex(byte, 2);

// Puts the last bytes of the output into an element, the turn's own marked, as `inspect run` writes bytes.
function showOutput(where, run, turn) {
  const count = countUpTo(run.outputTurns, turn), first = Math.max(0, count - SHOWN_BYTES),
        isNew = run.putsOutAt(turn) >= 0;
  const old = run.output.slice(first, isNew ? count - 1 : count).map(shownByte).join('');
  where.replaceChildren((first ? '..' : '') + old);
  if (isNew) where.append(element('span', 'new', shownByte(run.output[count - 1])));
  bringIntoView(where, where.appendChild(element('span', 'end')));
  return count;
}

const byteCount = count => count + (count === 1 ? ' byte' : ' bytes');

class OutputPane {
  constructor(run) { this.run = run; }

  show(turn) { byId('outn').textContent = byteCount(showOutput(byId('out'), this.run, turn)); }
}
