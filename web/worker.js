'use strict';
// The worker of the page. It runs the engine, so that the page can end a long run by ending the worker. Whatever ends a run
// without an answer, such as a stack that is too small, is a fault.

// The engine of the module in the page, which is compressed by gzip and written in base64.
async function engineOf(packed) {
  const bytes = Uint8Array.from(atob(packed), letter => letter.charCodeAt(0));
  const stream = new Blob([bytes]).stream().pipeThrough(new DecompressionStream('gzip'));
  return new Engine(new WebAssembly.Module(await new Response(stream).arrayBuffer()));
}

let engine;
onmessage = async ({ data }) => {
  if (data.packed !== undefined) {
    engine = engineOf(data.packed);
    return;
  }
  try {
    postMessage({ answer: (await engine).answer(data.words, data.bytes) });
  } catch (fault) {
    postMessage({ fault: String(fault) });
  }
};
