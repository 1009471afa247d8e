// Runs of the program: words and an input, and then what it prints, and its status. A page ends a run by ending this
// worker.
onmessage = ({ data: { module, words, input } }) => {
  const put = { 1: [], 2: [] }, bytes = new TextEncoder();
  let memory, status;
  const host = {
    put(to, at, count) {
      put[to].push(new Uint8Array(memory.buffer, Number(at), Number(count)).slice());
    },
    end(number) { throw { status: Number(number) }; },
  };
  try {
    const made = new WebAssembly.Instance(module, { host }).exports;
    memory = made.memory;
    const laid = some => {
      const at = made.room(BigInt(some.length + 1));
      if (at === 0n) throw { status: 1, said: "fault 1 Memory\n" };
      new Uint8Array(memory.buffer).set(some, Number(at));
      return [at, BigInt(some.length)];
    };
    made.words(...laid(bytes.encode(words.map(it => it + "\0").join(""))), BigInt(words.length));
    made.input(...laid(typeof input === "string" ? bytes.encode(input) : input));
    status = Number(made.run());
  } catch (ended) {
    if (ended.status === undefined) {
      postMessage({ failed: String(ended) });
      return;
    }
    status = ended.status;
    if (ended.said) put[2] = [bytes.encode(ended.said)];
  }
  const [out, errors] = [1, 2].map(to => joined(put[to]));
  postMessage({ status, out, errors, memory: memory.buffer.byteLength }, [out.buffer, errors.buffer]);
};
function joined(parts) {
  const whole = new Uint8Array(parts.reduce((sum, it) => sum + it.length, 0));
  let at = 0;
  for (const part of parts) {
    whole.set(part, at);
    at += part.length;
  }
  return whole;
}
