// ---- in a worker: calls the program, so that the page stays free to be typed in

let engine = null;

// A module out of its packed bytes.
async function unpacked(packed) {
  const bytes = Uint8Array.from(atob(packed), one => one.charCodeAt(0));
  const stream = new Blob([bytes]).stream().pipeThrough(new DecompressionStream('gzip'));
  return WebAssembly.compile(await new Response(stream).arrayBuffer());
}

// Makes the engine of packed modules.
async function prepare(packed) {
  const modules = {};
  for (const [name, one] of Object.entries(packed)) modules[name] = await unpacked(one);
  engine = engineOf(modules);
  return { ready: true };
}

// The answer of a call, with texts whose characters are its bytes.
function answerOf({ program, words, bytes }) {
  const begun = performance.now(), { status, out, err } = engine(program, words, bytes);
  return { status, out: textOf(out), err: textOf(err), took: performance.now() - begun };
}

self.onmessage = async ({ data }) => {
  try {
    self.postMessage(data.packed ? await prepare(data.packed) : answerOf(data));
  } catch (error) {
    self.postMessage({ status: -1, out: '', err: `the page failed: ${error}` });
  }
};
