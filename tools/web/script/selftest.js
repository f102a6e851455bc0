
// ---- The self-test: what the modules tell of programs of the repository, beside what is stored there.

// What differs, in words; empty where nothing does.
function selfTest(play, engine, stored) {
  const differs = [], same = (what, came, wanted) => {
    if (came !== wanted) differs.push(what);
  };
  const imageOf = source => play.tell('play_assemble', [utf8(source)]).bytes;
  const hello = imageOf(stored.hello), refused = imageOf(stored.refused), echo = imageOf(stored.echo);
  if (!hello || !refused || !echo) return ['an image'];
  same('a trace', play.text('play_trace', [hello, 8, 100000n, new Uint8Array()]), stored.turns);
  same('a verdict', play.text('play_why', [refused]), stored.why);
  const input = bytesOfText(stored.input);
  const ran = JSON.parse(play.text('play_run', [echo, 8, 100000n, input]));
  same('a run', ran.output.toLowerCase(), digitsOfBytes(input).toLowerCase());
  const session = new Session(engine, echo, 8);
  if (session.status === OK) {
    const {status, turns, exit, bytes} = session.step(1_000_000n, input, true);
    same('the end of a run in pieces', [status, turns, exit].join(), [ENDED, ran.turns, 0].join());
    same('the output of a run in pieces', textOfBytes(bytes), stored.input);
  } else {
    differs.push('the beginning of a run in pieces');
  }
  session.free();
  return differs;
}
