// usage: node runs.mjs PAGE FOLDER: the verdict on each image of FOLDER/cases.json and its run, as the page's modules
// tell them, a line of JSON each: the verdict, the run, and the same run in pieces on the engine and, on 8 windows, on
// the board.
import fs from 'node:fs';
import {pageOf} from './page.mjs';

const [path, folder] = process.argv.slice(2);
const page = pageOf(path), play = await page.module('play'), engine = await page.module('engine');
// Pieces and rooms that no input or output is a multiple of.
const PIECE = 77, ROOM = 1000, TURNS = 100_003n;

function inPieces(image, windows, input, kind) {
  const run = new page.Session(engine, image, windows, kind);
  if (run.status !== page.OK) return {status: run.status};
  const output = [];
  let at = 0, step;
  do {
    const piece = input.subarray(at, at + PIECE);
    step = run.step(TURNS, piece, at + piece.length === input.length, ROOM);
    at += step.read;
    output.push(...step.bytes);
  } while (step.status === page.FULL || step.status === page.PAUSED || step.status === page.WANTS && at < input.length);
  run.free();
  const bytes = Buffer.from(output).toString('hex').toUpperCase();
  return {status: step.status, turns: step.turns, exit: step.exit, output: bytes};
}

for (const {image: name, input: given, windows, limit} of JSON.parse(fs.readFileSync(`${folder}/cases.json`))) {
  const image = new Uint8Array(fs.readFileSync(name)), input = new Uint8Array(Buffer.from(given, 'hex'));
  const why = play.text('play_why', [image]), verdict = why === null ? 'no image' : why.split('\n', 1)[0];
  const run = play.text('play_run', [image, windows, BigInt(limit), input]);
  const told = {verdict: verdict.startsWith('accepted') ? 'accepted' : verdict, run, engine: null, board: null};
  if (told.verdict === 'accepted') {
    told.engine = inPieces(image, windows, input, page.ON_ENGINE);
    if (windows === 8) told.board = inPieces(image, windows, input, page.ON_BOARD);
  }
  console.log(JSON.stringify(told));
}
