
// ---- What the page is about: a source that is written, or an image that was opened. Both are judged, run and stepped
// through by what the module tells.

const IMAGE_MAGIC = 'SBX8', MOST_FILE = 16_777_216, CODE = 0x40000;
// Room for the data of 100,000 turns, as most programs have them.
const FIRST_DATA_ROOM = 1 << 22;

class SourceSubject {
  constructor(play, text) {
    this.play = play;
    this.text = text;
    this.bytes = utf8(text);
  }

  get isWritten() { return true; }

  // All faults, or the rule that is broken: whether it is accepted, what is wrong, and a text for a rule.
  judged() {
    const line = this.play.tell('play_check', [this.bytes]).bytes;
    if (!line) throw new Error('there is not so much memory');
    const {accepted, faults, text} = JSON.parse(new TextDecoder().decode(line));
    const rule = faults.length && /^V/.test(faults[0].code) ? faults[0].code : '';
    // (the sentence, the line and its mark are shown already)
    return {accepted, faults, rule, why: rule ? text.split('\n').slice(3).join('\n').trim() : ''};
  }

  // The source with the annotations that it hasn't got, or null where it can't have them; and what isn't shown of it,
  // each with its line.
  annotated() {
    const {status, bytes} = this.play.tell('play_annotate', [this.bytes]);
    if (status === MEMORY) throw new Error('there is not so much memory');
    const notes = this.play.text('play_notes', [this.bytes]) ?? '';
    return {
      text: bytes && new TextDecoder().decode(bytes),
      notes: notes.split('\n').filter(it => it).map(line => {
        const space = line.indexOf(' ');
        return {line: Number(line.slice(0, space)), sentence: line.slice(space + 1)};
      })
    };
  }

  get image() {
    this.made ??= this.play.tell('play_assemble', [this.bytes]).bytes;
    return this.made;
  }

  get source() { return this.text; }
}

class ImageSubject {
  constructor(play, bytes) {
    this.play = play;
    this.image = bytes;
    this.listing = play.text('play_list', [bytes]);
  }

  get isWritten() { return false; }

  // What stands in the editor: what the image declares, and its code.
  get text() { return this.listing; }

  get isImage() { return this.listing !== null; }

  judged() {
    const why = this.play.text('play_why', [this.image]), [head, sentence = ''] = why.split('\n');
    if (head.startsWith('accepted')) return {accepted: true, faults: [], rule: '', why: ''};
    const [, rule, address] = head.match(/^refused (V\d+) in function \d+ at ([0-9A-F]{8})/);
    const line = (fromHex(address) - CODE) / 4 + 1;
    return {accepted: false, rule, faults: [{line, column: 1, code: rule, sentence}],
      why: why.split('\n').slice(2).join('\n').trim()};
  }

  get source() { return null; }
}

// Where each line of a source stands once annotations were put between its lines.
function movedLines(before, after) {
  const lines = after.split('\n'), isFunction = line => /^\s*\.function\b/.test(line);
  const isSame = (line, other) => line === other || isFunction(line) && isFunction(other);
  let at = 0;
  return before.split('\n').map(line => {
    while (at < lines.length && !isSame(line, lines[at])) at++;
    return ++at;
  });
}

// The run of a subject, turn by turn: its data, what is read of them, and the line of each address. Where there is no
// source the code is shown, a word a line.
function recorded(subject, {windows, limit, input, comments}) {
  const {play, image, source} = subject, isWritten = source !== null;
  const given = [image, windows, BigInt(limit), input, utf8(isWritten ? source : '')];
  const data = play.text('play_page', given, FIRST_DATA_ROOM);
  if (data === null) throw new Error('there is not so much memory');
  const run = new Run(data, comments), lineAt = new Map();
  const put = (address, words, line) => {
    for (let word = 0; word < words; word++) lineAt.set(address + 4 * word, line);
  };
  run.source.forEach(({address, words}, at) => put(address, words, at + 1));
  const code = Array.from(run.code.keys()).filter(it => it < USER_CODE_END);
  if (!isWritten) code.forEach((address, at) => put(address, 1, at + 1));
  return {data, run, lineAt};
}
