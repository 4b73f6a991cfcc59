// The program lab: a worker runs it for each question, and is ended and begun again where an answer takes too long.
import { $ } from './now.js';

/** @typedef {{ status: number, out: string, err: string, ms: number, memory: number }} Answer */
/** @param {Uint8Array} raw */
const base64 = raw => btoa(Array.from(raw, byte => String.fromCharCode(byte)).join(''));
/** @param {string} text */
function raw_of(text) {
  const bytes = atob(text), raw = new Uint8Array(bytes.length);
  for (let i = 0; i < raw.length; i++) raw[i] = bytes.charCodeAt(i);
  return raw;
}
/** @param {any} raw @param {any} by */
const through = async (raw, by) =>
  new Uint8Array(await new Response(new Blob([raw]).stream().pipeThrough(by)).arrayBuffer());

/** @param {string} name @param {string} form */
const stream = (name, form) => new (/** @type {any} */ (globalThis)[name])(form);

/** A text in an address, and back. @param {string} text */
export const packed = async text => base64(await through(text, stream('CompressionStream', 'deflate-raw')))
  .replace(/\+/g, '-').replace(/\//g, '_').replace(/=+$/, '');
/** @param {string} part */
export const unpacked = async part => new TextDecoder('utf-8', { fatal: true }).decode(
  await through(raw_of(part.replace(/-/g, '+').replace(/_/g, '/')), stream('DecompressionStream', 'deflate-raw')));

/** A file that belongs to the page: in the page itself, packed, or beside it. @param {string} name */
export async function part_of(name) {
  const here = $(name);
  if (here) return through(raw_of(here.textContent.trim()), stream('DecompressionStream', 'gzip'));
  const answer = await fetch(name);
  if (!answer.ok) throw new Error(`${name} was not found (${answer.status})`);
  return new Uint8Array(await answer.arrayBuffer());
}
/** @param {string} name */
export const json_of = async name => JSON.parse(new TextDecoder().decode(await part_of(name)));

/** @returns {Worker} */
function new_worker() {
  const here = $('worker.js');
  if (!here) return new Worker('worker.js', { type: 'module' });
  return new Worker(URL.createObjectURL(new Blob([here.textContent], { type: 'text/javascript' })));
}

/** So long a run may take, unless it is given more. */
export const RUN_SECONDS = 10;
export class Runner {
  /** @param {Uint8Array} code */
  constructor(code) {
    this.code = code;
    this.last = 0;
    /** @type {Map<number, any>} */
    this.asked = new Map();
    this.worker = this.begun();
  }
  begun() {
    const worker = new_worker();
    this.is_ready = false;
    worker.onmessage = event => {
      const { id, heard, compiled } = event.data;
      if (compiled) this.ready();
      else if (heard === undefined) this.answered(id, event.data);
      else this.asked.get(id)?.heard(heard);
    };
    worker.postMessage({ code: this.code });
    return worker;
  }
  /** The code is compiled, which takes long on a slow device: the time of what was asked begins now. */
  ready() {
    this.is_ready = true;
    for (const it of this.asked.values()) it.begin();
  }
  /** @param {number} id @param {Answer} answer */
  answered(id, answer) {
    const it = this.asked.get(id);
    if (!it) return;
    this.asked.delete(id);
    clearTimeout(it.timer);
    it.done(answer);
  }
  /** Ends what runs; all that was asked is answered with why. @param {string} why */
  stop(why) {
    if (!this.asked.size) return;
    this.worker.terminate();
    this.worker = this.begun();
    for (const [id, it] of [...this.asked])
      this.answered(id, { status: -2, out: '', err: why + '\n', ms: performance.now() - it.at, memory: 0 });
  }
  /**
   * Runs the program over words, files and an input; what it writes to standard error can be heard as it comes.
   * @param {string[]} words @param {Record<string, string>} files
   * @param {(text: string) => void} [heard] @returns {Promise<Answer>}
   */
  ask(words, files = {}, input = '', seconds = RUN_SECONDS, heard) {
    return new Promise(done => {
      const id = ++this.last, it = { done, at: performance.now(), timer: 0, heard, begin: () => {
        it.timer = setTimeout(() => this.stop(`stopped after ${seconds} s`), seconds * 1000);
      } };
      this.asked.set(id, it);
      if (this.is_ready) it.begin();
      this.worker.postMessage({ id, words: ['lab', ...words], files, input, hears: Boolean(heard) });
    });
  }
}
