
// ---- What an exercise asks of a program, and what differs.

// The greatest count of turns that a check makes, of a program that need not end.
const CHECKED_TURNS = 1_000_000n, SIMM13 = 0x1FFF;
const HEADER = 20, REGIONS_HEADER = 18, REGION = 6;

const shownBytes = digits => `\u201C${[...bytesOf(digits)]
  .map(byte => isGraphic(byte) ? String.fromCharCode(byte) : `\\x${hex(byte, 2)}`).join('')}\u201D`;

const plural = (count, noun) => `${count} ${noun}${count === 1 ? '' : 's'}`;

// Each thing that a run is asked for: its value, and how it is told.
const ASKED = {
  exit: [run => run.end.how === 'exit' ? run.end.word : null, it => `exit word ${it === null ? 'none' : hex(it)}`],
  turns: [run => run.turns, it => plural(it, 'turn')],
  output: [run => run.output, shownBytes],
  fault: [run => run.fault_status, it => `fault status ${hex(it)}`],
  overflows: [run => run.overflows, it => plural(it, 'overflow')],
  underflows: [run => run.underflows, it => plural(it, 'underflow')],
};

// Where the code of an image begins, and how many words it has (docs/machine/image.md, "Header").
function codeOf(view) {
  const start = view.getUint16(4) === 1 ? HEADER : REGIONS_HEADER + REGION * view.getUint16(12);
  return {start, words: view.getUint32(8)};
}

// An image in which a number stands in the place of another one as an instruction's operand.
function patched(image, {of, to}) {
  const made = image.slice(), view = new DataView(made.buffer), {start, words} = codeOf(view);
  for (let at = start; at < start + 4 * words; at += 4) {
    const word = view.getUint32(at), hasNumber = word >>> 30 === 2 && word >>> 13 & 1;
    if (hasNumber && (word & SIMM13) === of) view.setUint32(at, (word & ~SIMM13 | to) >>> 0);
  }
  return made;
}

// The checks of an exercise on a source, each with whether it holds, and what was found.
class Exercise {
  constructor(play, source) {
    this.play = play;
    this.image = play.tell('play_assemble', [source]).bytes;
  }

  checks(asked) {
    if (!this.image) return [{holds: false, text: 'it isn\u2019t assembled yet: see the faults below the source'}];
    this.declared = this.play.text('play_image', [this.image]);
    this.listing = this.play.text('play_list', [this.image]);
    return asked.flatMap(it => this.check(it));
  }

  check(asked) {
    if (asked.has) return [this.has(asked)];
    if (asked.accepted) return [this.accepted()];
    if (asked.budget) return [this.budget(asked.budget)];
    return this.run(asked);
  }

  has({has, times, says}) {
    const found = this.listing.split('\n').filter(it => new RegExp(`^(${has})$`).test(it.slice(18).split(' ', 1)[0]));
    return {holds: found.length === times, text: `${says}: found ${found.length}, wanted ${times}`};
  }

  accepted() {
    const why = this.play.text('play_why', [this.image]).split('\n', 1)[0];
    return {holds: why.startsWith('accepted'), text: `accepted by the verifier: ${why}`};
  }

  budget(wanted) {
    const budget = Number(this.declared.match(/^\.function f0,\w+,\d+,\d+,(\d+)$/m)[1]);
    return {holds: budget === wanted, text: `the least budget that is accepted: ${budget} is declared` +
      (budget === wanted ? '' : budget > wanted ? '; it can be less' : '; it has to be more')};
  }

  run(asked) {
    const {windows = 8, input = ''} = asked;
    const image = asked.patched ? patched(this.image, asked.patched) : this.image;
    const run = JSON.parse(this.play.text('play_run', [image, windows, CHECKED_TURNS, bytesOf(input)]));
    const where = [
      ...asked.patched ? [`with ${asked.patched.to} in the place of ${asked.patched.of}`] : [],
      ...input ? [`on the input ${shownBytes(input)}`] : [], ...asked.windows ? [`on ${windows} windows`] : []
    ].join(', ');
    return Object.keys(ASKED).filter(it => it in asked).map(name => {
      const [valueOf, shown] = ASKED[name], came = valueOf(run), holds = came === asked[name];
      const wanted = holds ? '' : `, wanted ${shown(asked[name])}`;
      return {holds, text: `${where ? `${where}: ` : ''}${shown(came)}${wanted}`};
    });
  }
}
