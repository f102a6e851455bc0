
// ---- A second run beside the first: where it stands when the first is at a turn, and what is the same in both.
const TOGETHER = {
  // As many turns without those of window traps, so that each turn of the program stands beside itself.
  turns: (first, second, turn) => second.story.turnOfPlain(first.story.plain[turn]),
  output: (first, second, turn) => {
    const count = countUpTo(first.run.outputTurns, turn), turns = second.run.outputTurns;
    if (turn === first.run.turns) return second.run.turns;
    return count && turns.length ? turns[Math.min(count, turns.length) - 1] : 0;
  },
};

const inWindowTrap = (side, turn) => side.story.kinds[turn] === OF_OVERFLOW || side.story.kinds[turn] === OF_UNDERFLOW;

// Two runs on one count of windows have numbers for titles, which they keep where they are exchanged.
function numberRuns(first, second) {
  if (first.run.windows !== second.run.windows) return;
  first.story.title = 'first run';
  second.story.title = 'second run';
}

// The registers of the current windows that hold different words.
function differingRegisters(first, second, turn, other) {
  const window = first.run.window(turn), otherWindow = second.run.window(other), names = [];
  for (let number = 1; number < 32; number++)
    if (first.run.register(number, window).at(turn) !== second.run.register(number, otherWindow).at(other))
      names.push(registerName(number));
  return names;
}

// How many bytes, of those that both have put out, are the same from the first on.
function sameBytes(first, second, count) {
  let same = 0;
  while (same < count && first.run.output[same] === second.run.output[same]) same++;
  return same;
}

class Comparison {
  constructor(first, second) {
    this.first = first;
    this.second = second;
    this.body = byId('compare').tBodies[0];
  }

  row(name, one, other, same) {
    const row = this.body.insertRow();
    row.className = same === null ? '' : same ? 'same' : 'differs';
    for (const text of [name, one, same === null ? '' : same ? '=' : '\u2260', other])
      row.insertCell().textContent = text;
  }

  show(turn, other) {
    const {first, second} = this;
    this.body.replaceChildren();
    const waits = inWindowTrap(first, turn) || inWindowTrap(second, other);
    this.row('', first.story.title, second.story.title, null);
    const [one, two] = [first.story.plain[turn], second.story.plain[other]];
    this.row('turns', turn + ' of ' + first.run.turns, other + ' of ' + second.run.turns, turn === other);
    this.row('of these in window traps', String(turn - one), String(other - two), turn - one === other - two);
    this.row('without them', String(one), String(two), one === two);
    this.showOutput(turn, other);
    if (waits) return this.row('registers', 'a window handler is at work', '', null);
    const pcs = [first.run.pc[turn + 1], second.run.pc[other + 1]];
    this.row('PC', hex(pcs[0]), hex(pcs[1]), pcs[0] === pcs[1]);
    const differing = differingRegisters(first, second, turn, other), same = 32 - differing.length;
    this.row('registers', same + ' of 32 the same', differing.join(' '), differing.length === 0);
  }

  showOutput(turn, other) {
    const {first, second} = this,
                  counts = [countUpTo(first.run.outputTurns, turn), countUpTo(second.run.outputTurns, other)];
    const least = Math.min(...counts), same = sameBytes(first, second, least);
    this.row('output', byteCount(counts[0]), byteCount(counts[1]), same === least && counts[0] === counts[1]);
    if (same < least)
      this.row('first byte that differs', hex(first.run.output[same], 2), hex(second.run.output[same], 2), false);
  }
}

class BesidePane {
  constructor(first, second) {
    this.first = first;
    this.second = second;
    this.comparison = new Comparison(first, second);
    this.windows = new WindowsPane(byId('second'), second.run, second.story, () => {});
    byId('out1n').textContent = 'Output, ' + first.story.title;
    byId('out2n').textContent = 'Output, ' + second.story.title;
  }

  // Where the second run stands: with the first one, or where it stood.
  place(turn) {
    const follow = TOGETHER[byId('together').value];
    if (follow) this.turn = follow(this.first, this.second, turn);
    return this.turn || 0;
  }

  show(turn) {
    const other = this.place(turn);
    this.turn = other;
    this.windows.show(other, '');
    this.comparison.show(turn, other);
    showOutput(byId('out1'), this.first.run, turn);
    showOutput(byId('out2'), this.second.run, other);
  }
}
