// In a worker: compiles the module once, and runs the program for each question.
import { run_program, text_of } from './host.js';

/** @type {Promise<WebAssembly.Module>} */
let compiled;
onmessage = async event => {
  const { id, code, words, files, input, hears } = event.data;
  const heard = (/** @type {Uint8Array} */ part) => postMessage({ id, heard: text_of([part]) });
  if (code) {
    compiled = WebAssembly.compile(code);
    const says = () => postMessage({ compiled: true });
    compiled.then(says, says);
    return;
  }
  const begun = performance.now();
  let answer;
  try {
    answer = run_program(await compiled, words, files, input, hears ? heard : undefined);
  } catch (error) {
    answer = { status: -1, out: '', err: `the program stopped: ${error}\n`, memory: 0 };
  }
  postMessage({ id, ms: performance.now() - begun, ...answer });
};
