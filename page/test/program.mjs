// The program for tests by Node: in place of the browser's worker the module runs right here, where tools/page has made it.
import fs from 'node:fs';
import { fileURLToPath } from 'node:url';
import { run_program } from '../host.js';
import { begin_program } from '../js/asks.js';

const code = fileURLToPath(new URL('../out/site/lab.wasm', import.meta.url));
/** Why tests that need the program are left out, or false. */
export const skip = fs.existsSync(code) ? false : 'there is no out/site/lab.wasm: tools/page makes it';

/** @type {any} */
const outside = globalThis;
/** A worker that answers at once. */
class Here {
  postMessage(it) {
    if (it.code) {
      this.module = new WebAssembly.Module(it.code);
      return queueMicrotask(() => this.onmessage({ data: { compiled: true } }));
    }
    const answer = run_program(this.module, it.words, it.files, it.input);
    queueMicrotask(() => this.onmessage({ data: { id: it.id, ms: 0, ...answer } }));
  }
  terminate() {}
}
export function begin() {
  outside.Worker = Here;
  outside.document ||= { getElementById: () => null };
  begin_program(fs.readFileSync(code));
}
