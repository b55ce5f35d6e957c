// Answers calls one after the other, apart from the page, so that the page can end it.
'use strict';
importScripts('shex.js');

/** The module, which stands beside the page, or in dist/ of a checkout. */
async function compiledModule() {
  for (const place of ['shex.wasm', '../dist/shex.wasm']) {
    const found = await fetch(place);
    if (found.ok) return WebAssembly.compileStreaming(found);
  }
  throw new Error('shex.wasm was not found');
}

const compiled = compiledModule();
compiled.catch(() => {});

onmessage = async ({ data: { id, call } }) => {
  try {
    postMessage({ id, answer: callShex(await compiled, call) });
  } catch (error) {
    postMessage({ id, trap: String(error) });
  }
};
