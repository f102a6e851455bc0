
// ---- The bound on the end: what the declared fuel says, at the start of each block that runs. Of accepted images
// alone.

// The value of a term's location: a register, or a slot of the frame.
function locationValue(run, location, turn) {
  const window = run.window(turn);
  if (location < 32) return run.register(location, window).at(turn) | 0;
  return run.memoryWord(run.register(14, window).at(turn) + 64 + 4 * (location - 32)).at(turn) | 0;
}

function fuelAt(run, block, turn) {
  return block.terms.reduce((sum, [location, factor]) => sum + factor * locationValue(run, location, turn), block.fuel);
}

// By turn, the turn by which the run ends: the turns made, the fuel of the block just begun, and what the callers have
// left, which is what the bound left when the callee began, less the callee's budget.
function boundOf(run) {
  const bound = new History(), calls = [];
  let least = run.functions[0].budget;
  bound.put(0, least);
  const lower = (turn, to) => {
    if (to >= least) return;
    least = to;
    bound.put(turn, to);
  };
  const left = () => calls.length ? calls[calls.length - 1].left : 0;
  for (let turn = 1; turn <= run.turns; turn++) {
    const pc = run.pc[turn], block = run.isSupervisor(turn - 1) ? null : run.blockOf(pc), done = turn - 1;
    if (!block) continue;
    const callee = block.function;
    if (pc === callee.address && callee.number && !calls.some(call => call.callee === callee))
      calls.push({callee, left: least - done - callee.budget});
    while (calls.length && calls[calls.length - 1].callee !== callee) lower(turn, done + calls.pop().left);
    if (pc === block.address) lower(turn, done + fuelAt(run, block, done) + left());
  }
  return bound;
}
