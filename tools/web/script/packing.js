
// ---- Bytes in text: what the page holds packed, and links that hold a program.

// A link may unfold to so many characters at most.
const MOST_LINK = 1 << 20;

const streamOf = parts => new Blob(parts).stream();

async function wholeOf(stream) { return new Uint8Array(await new Response(stream).arrayBuffer()); }

const bytesOfBase64 = text => Uint8Array.from(atob(text.replace(/\s/g, '')), it => it.charCodeAt(0));

const unpacked = base64 =>
  wholeOf(streamOf([bytesOfBase64(base64)]).pipeThrough(new DecompressionStream('gzip')));

// A text for an address: deflated, in base64 without what an address would escape.
async function packedText(text) {
  const bytes = await wholeOf(streamOf([utf8(text)]).pipeThrough(new CompressionStream('deflate-raw')));
  return btoa(textOfBytes(bytes)).replaceAll('+', '-').replaceAll('/', '_').replace(/=+$/, '');
}

// The text of such a word. A short word may unfold to much, so it is looked at piece by piece.
async function textOfPacked(word) {
  const bytes = bytesOfBase64(word.replaceAll('-', '+').replaceAll('_', '/'));
  const reader = streamOf([bytes]).pipeThrough(new DecompressionStream('deflate-raw')).getReader();
  const decoder = new TextDecoder('utf-8', {fatal: true});
  let text = '';
  for (;;) {
    const {done, value} = await reader.read();
    if (done) return text + decoder.decode();
    text += decoder.decode(value, {stream: true});
    if (text.length > MOST_LINK) throw new Error('too long');
  }
}

// What a link holds, and nothing else that it says: a source, its input, and a count of windows.
function programOfLink(text) {
  const {s, i, w} = JSON.parse(text);
  if (typeof s !== 'string' || typeof i !== 'string' || !Number.isInteger(w) || w < 4 || w > 32)
    throw new Error('no program');
  return {title: 'of a link', source: s, input: i, windows: w};
}
