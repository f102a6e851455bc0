// What stands in the page, for tests in Node: its modules, what it keeps, and the parts of its script that need no
// document.
import fs from 'node:fs';
import vm from 'node:vm';
import zlib from 'node:zlib';

const NAMES = ['Blocks', 'Module', 'Session', 'Exercise', 'Run', 'selfTest', 'textOfBytes',
  'bytesOfText', 'utf8', 'packedText', 'textOfPacked', 'programOfLink', 'OK', 'ENDED', 'WANTS', 'FULL', 'PAUSED',
  'ON_BOARD', 'ON_ENGINE', 'ROOM', 'SOURCE', 'NO_IMAGE', 'NO_PROGRAM', 'MEMORY'];

const elementOf = (page, id) => page.match(new RegExp(`<script type="text/plain" id="${id}">([^<]*)</script>`))[1];
const unpacked = text => zlib.gunzipSync(Buffer.from(text, 'base64'));

export function pageOf(path) {
  const page = fs.readFileSync(path, 'utf8'), script = page.match(/<script>([^]*?)<\/script>/)[1];
  const parts = script.slice(0, script.indexOf('const MOST_SHOWN_TURNS'));
  const context = vm.createContext({WebAssembly, BigInt, TextDecoder, TextEncoder, Blob, Response, CompressionStream,
    DecompressionStream, atob, btoa, document: {}, Uint8Array, DataView, ArrayBuffer, Map, Set});
  const found = vm.runInContext(`${parts}\n;({${NAMES.join(', ')}})`, context);
  const kept = JSON.parse(unpacked(elementOf(page, 'kept')).toString());
  const module = name => found.Module.of(unpacked(elementOf(page, `module-${name}`)));
  return {...found, page, kept, module};
}

// Counts checks, and tells those that don't hold, a line each; the last line has the counts.
export class Tally {
  constructor() { this.passed = this.failed = 0; }

  same(name, came, wanted) {
    if (came === wanted) {
      this.passed++;
      return;
    }
    this.failed++;
    const [one, other] = [came, wanted].map(it => String(it).split('\n'));
    const at = one.findIndex((line, place) => line !== other[place]);
    console.log(`FAILED web: ${name}: line ${at + 1}: wanted ${other[at]}, came ${one[at]}`);
  }

  check(name, holds) { this.same(name, Boolean(holds), true); }

  end() { console.log(`${this.passed} ${this.failed}`); }
}
