// Runs the program of a module over words, files and an input, all in memory: in a page, a worker and Node.

const NO_FILE = -2, BAD_FILE = -9;
const encoder = new TextEncoder();
/** @param {string | Uint8Array} it */
const bytes_of = it => typeof it === 'string' ? encoder.encode(it) : it;
/** @param {Uint8Array[]} parts */
export function text_of(parts) {
  const decoder = new TextDecoder('utf-8', { ignoreBOM: true });
  return parts.map(part => decoder.decode(part, { stream: true })).join('') + decoder.decode();
}

/**
 * What the program may ask of the page: five functions over a memory that is there once the instance is made.
 * @param {string[]} words
 * @param {Record<string, string | Uint8Array>} files
 * @param {string | Uint8Array} input
 * @param {(file: number, part: Uint8Array) => void} writes
 * @param {() => ArrayBuffer} memory
 */
function page_of(words, files, input, writes, memory) {
  const given = words.map(bytes_of), open = new Map([[0, { bytes: bytes_of(input), at: 0 }]]);
  const at = (/** @type {bigint} */ pointer, /** @type {bigint} */ length) =>
    new Uint8Array(memory(), Number(pointer), Number(length));
  let next = 3;
  return {
    /** @param {bigint} index @param {bigint} to @param {bigint} length */
    word(index, to, length) {
      const it = given[Number(index)];
      if (!it) return -1n;
      if (it.length > Number(length)) return -2n;
      at(to, length).set(it);
      return BigInt(it.length);
    },
    /** @param {bigint} path @param {bigint} length */
    open(path, length) {
      const name = new TextDecoder().decode(at(path, length).slice());
      if (!Object.hasOwn(files, name)) return NO_FILE;
      open.set(next, { bytes: bytes_of(files[name]), at: 0 });
      return next++;
    },
    /** @param {number} file @param {bigint} to @param {bigint} length */
    read(file, to, length) {
      const it = open.get(file);
      if (!it) return BigInt(BAD_FILE);
      const part = it.bytes.subarray(it.at, it.at + Number(length));
      at(to, length).set(part);
      it.at += part.length;
      return BigInt(part.length);
    },
    /** @param {number} file @param {bigint} from @param {bigint} length */
    write(file, from, length) {
      if (file !== 1 && file !== 2) return BigInt(BAD_FILE);
      writes(file, at(from, length).slice());
      return length;
    },
    /** @param {number} file */
    close(file) {
      open.delete(file);
      return 0;
    },
  };
}

/**
 * Runs the program once, in an instance of its own; gives its status and what it wrote.
 * @param {WebAssembly.Module} module
 * @param {string[]} words
 * @param {Record<string, string | Uint8Array>} files
 * @param {string | Uint8Array} input
 * @param {(part: Uint8Array) => void} [heard]  is given what it writes to standard error, as it comes
 */
export function run_program(module, words, files, input, heard) {
  /** @type {Uint8Array[][]} */
  const written = [[], []];
  /** @type {WebAssembly.Memory} */
  let memory;
  const page = page_of(words, files, input, (file, part) => {
    written[file - 1].push(part);
    if (file === 2) heard?.(part);
  }, () => memory.buffer);
  const instance = new WebAssembly.Instance(module, { page });
  memory = /** @type {WebAssembly.Memory} */ (instance.exports.memory);
  const status = /** @type {() => number} */ (instance.exports.page_main)();
  return { status, out: text_of(written[0]), err: text_of(written[1]), memory: memory.buffer.byteLength };
}
