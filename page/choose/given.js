// What the data of a page of choices say of an end: { status, state, waits }. `status` is in words of `explore`.

function endOf(state, waits) {
  const { threads } = readState(state);
  const never = threads.find(line => line.endsWith(": the setup has ended with a trap"));
  const waiting = threads.filter(line => / waits for /.test(line)).map(line => line.replace(/^([\w$]+)\.[0-9]+/, "$1"));
  return { status: waits ? waiting.join("; ") : never || "ended", state, waits };
}
