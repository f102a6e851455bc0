// usage: node stored.mjs PAGE TOP: what the page's modules tell, beside the texts that the repository stores. The last
// line has how many checks passed and failed.
import fs from 'node:fs';
import {Tally, pageOf} from './page.mjs';

const [path, top] = process.argv.slice(2);
const page = pageOf(path), play = await page.module('play'), tally = new Tally();
const bytes = file => new Uint8Array(fs.readFileSync(file));
const text = file => fs.readFileSync(file, 'latin1');
const names = (folder, end) =>
  fs.readdirSync(folder).filter(it => it.endsWith(end)).map(it => it.slice(0, -end.length));
const told = (name, ...given) => {
  const {status, bytes: found} = play.tell(name, given);
  return found ? page.textOfBytes(found) : `status ${status}`;
};

// All faults of a source: the file's name stands in what is stored.
function checks() {
  const folder = `${top}/tests/inspect/check`;
  for (const name of names(folder, '.told')) {
    const found = JSON.parse(told('play_check', bytes(`${folder}/${name}.s`)));
    const stored = text(`${folder}/${name}.told`).replace(/^[^\n]*\//gm, '');
    tally.same(`check ${name}`, found.text.replaceAll('program:', `${name}.s:`), stored);
  }
}

// Image, declarations, trace and run of each example.
function example(at) {
  const image = play.tell('play_assemble', [bytes(`${at}.s`)]).bytes;
  const input = fs.existsSync(`${at}.in`) ? bytes(`${at}.in`) : new Uint8Array();
  const beside = (end, made) => fs.existsSync(`${at}${end}`) && tally.same(at + end, made(), text(`${at}${end}`));
  tally.check(`${at}: no image`, image);
  beside('.img', () => page.textOfBytes(image));
  beside('.told', () => told('play_image', image));
  beside('.turns', () => told('play_trace', image, 8, 100000n, input));
  if (!fs.existsSync(`${at}.ran`)) return;
  const run = JSON.parse(told('play_run', image, 8, 100000n, input)), stored = text(`${at}.ran`);
  tally.same(`${at}: turns`, run.turns, Number(stored.match(/^turns: (\d+)/m)[1]));
  const [overflows, underflows] = stored.match(/^window traps: (.*)/m)[1].match(/\d+/g).map(Number);
  tally.same(`${at}: window traps`, `${run.overflows} ${run.underflows}`, `${overflows} ${underflows}`);
  if (run.end.how === 'exit') beside('.out', () => page.textOfBytes(Uint8Array.from(Buffer.from(run.output, 'hex'))));
}

function examples() {
  for (const folder of fs.readdirSync(`${top}/examples`).filter(it => !['build', 'c', 'refused'].includes(it)))
    for (const name of names(`${top}/examples/${folder}`, '.s')) example(`${top}/examples/${folder}/${name}`);
}

// Why an image is refused.
function refusals() {
  for (const folder of [`${top}/examples/refused`, `${top}/tests/inspect/why`]) {
    for (const name of names(folder, '.told')) {
      const at = `${folder}/${name}`, isSource = fs.existsSync(`${at}.s`);
      if (!isSource && !fs.existsSync(`${at}.img`)) continue;
      const image = isSource ? play.tell('play_assemble', [bytes(`${at}.s`)]).bytes : bytes(`${at}.img`);
      tally.same(`why ${name}`, told('play_why', image), text(`${at}.told`));
    }
  }
}

// A loop that has to be annotated, and a word that has no place in a program.
const COUNTED = page.utf8(`.services exit
.function main,leaf,0,0,0
    mov 3,%o1
.block loop
    deccc %o1
    bne loop
    nop
.block done
    ta 0
`), UNPLACED = page.utf8('.function main,leaf,0,0,0\n    rd %psr,%o0\n');

// A source gets the annotations that it lacks, and notes tell its lines; a page tells windows, turns and the limit.
function annotated() {
  const nothing = new Uint8Array(), image = play.tell('play_assemble', [COUNTED]).bytes;
  tally.check('the cell of a counter', told('play_annotate', COUNTED).includes('\n.cell %o1,1,3,0\n'));
  tally.same('the line of its note', told('play_notes', COUNTED).split(' ', 1)[0], '9');
  tally.check('the head of a page', told('play_page', image, 8, 100n, nothing, COUNTED).includes('\nn8 13 100 1\n'));
}

// What isn't an image, a source or a count of windows is denied by its status.
function denials() {
  const nothing = new Uint8Array(), junk = page.bytesOfText('SBX8 and so on');
  const hello = page.utf8(page.kept.stored.hello);
  const image = play.tell('play_assemble', [hello]).bytes;
  for (const name of ['play_image', 'play_why', 'play_list'])
    for (const given of [nothing, junk]) tally.same(name, play.tell(name, [given]).status, page.NO_IMAGE);
  for (const windows of [0, 3, 33, 4294967295])
    tally.same(`${windows} windows`, told('play_run', image, windows, 10n, nothing), 'status 4');
  for (const windows of [3, 33])
    tally.same(`a page on ${windows} windows`, told('play_page', image, windows, 10n, nothing, nothing), 'status 4');
  tally.same('a word that no program has', play.tell('play_annotate', [UNPLACED]).status, page.NO_PROGRAM);
  tally.same('why it is none', told('play_notes', UNPLACED).split(' ', 2).join(' '), '2 an');
  for (const name of ['play_assemble', 'play_map', 'play_annotate'])
    tally.same(name, play.tell(name, [page.utf8('no such thing\n')]).status, page.SOURCE);
  tally.same('a page of no image', told('play_page', nothing, 32, 100n, nothing, nothing), `status ${page.NO_IMAGE}`);
  const page4 = [image, 4, 100n, nothing, nothing];
  for (const [name, given] of [['play_image', [image]], ['play_check', [hello]], ['play_annotate', [COUNTED]],
    ['play_page', page4]]) {
    const whole = play.tell(name, given), cut = play.tell(name, given, 1);
    tally.same(`${name} into little room`, page.textOfBytes(cut.bytes), page.textOfBytes(whole.bytes));
  }
}

// A call whose growth of memory of some number is refused: its status, and whether room and length are as they were.
function refusing(name, given, number) {
  const {blocks, calls} = play, call = calls[name], take = blocks.take, told = {};
  const kept = ([to, size, needed]) => [[to, size], [needed, 8]]
    .map(([at, length]) => new Uint8Array(play.memory.buffer, Number(at), Number(length)));
  let count = 0;
  play.calls = {...calls, [name]: (...words) => {
    kept(words.slice(-3)).forEach(it => it.fill(0xA5));
    blocks.take = bytes => count++ === number ? 0 : take.call(blocks, bytes);
    told.status = call(...words);
    blocks.take = take;
    told.isAsItWas = kept(words.slice(-3)).every(it => it.every(byte => byte === 0xA5));
    return told.status;
  }};
  play.tell(name, given);
  play.calls = calls;
  return told;
}

// Each growth of memory is refused in turn: the answer is MEMORY, room and length stay, and the next call is as ever.
function growths() {
  const hello = page.utf8(page.kept.stored.hello), nothing = new Uint8Array();
  const image = play.tell('play_assemble', [hello]).bytes, run = [image, 8, 100n, nothing];
  const calls = {play_check: [hello], play_assemble: [hello], play_map: [hello], play_image: [image], play_why: [image],
    play_list: [image], play_run: run, play_trace: run, play_states: run, play_page: [...run, hello],
    play_annotate: [COUNTED], play_notes: [COUNTED]};
  for (const [name, given] of Object.entries(calls)) {
    const whole = told(name, ...given);
    let number = 0;
    for (;; number++) {
      const {status, isAsItWas} = refusing(name, given, number);
      if (status === page.OK) break;
      tally.same(`${name}, growth ${number}`, status, page.MEMORY);
      tally.check(`${name}, growth ${number}: room and length`, isAsItWas);
    }
    tally.check(`${name}: no growth`, number);
    tally.same(`${name} behind refused growths`, told(name, ...given), whole);
  }
}

checks();
examples();
refusals();
annotated();
denials();
growths();
tally.end();
