// usage: node data.mjs PAGE FOLDER: the data of a run of each of FOLDER/cases.json, as the module makes them, its
// states, and the map of its source, into FOLDER
import fs from 'node:fs';
import {pageOf} from './page.mjs';

const [path, folder] = process.argv.slice(2);
const page = pageOf(path), play = await page.module('play');
for (const {name, source, windows, limit, input: given} of JSON.parse(fs.readFileSync(`${folder}/cases.json`))) {
  const text = fs.readFileSync(source, 'utf8'), input = new Uint8Array(Buffer.from(given, 'hex'));
  const image = play.tell('play_assemble', [page.utf8(text)]).bytes;
  const tell = (call, ...more) => play.text(call, [image, ...more]);
  const told = tell('play_page', windows, BigInt(limit), input, page.utf8(text));
  fs.writeFileSync(`${folder}/${name}.data`, told);
  const states = tell('play_states', windows, BigInt(limit), input);
  fs.writeFileSync(`${folder}/${name}.states`, states, 'latin1');
  fs.writeFileSync(`${folder}/${name}.map`, play.text('play_map', [page.utf8(text)]), 'latin1');
}
console.log('done');
