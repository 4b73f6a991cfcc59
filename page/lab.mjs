// The lab by Node 18 or later, with nothing else installed: node lab.mjs play FILE, or any other words of the lab.
// The program's code is lab.wasm beside this file, or the one that tools/page made last. Files that the words name are
// read, and standard input up to its end where no file is named or the word is live. Status and output are the
// program's own.
import fs from 'node:fs';
import { run_program } from './host.js';

/** @param {string} name */
const beside = name => new URL(name, import.meta.url);
const code = ['lab.wasm', 'out/site/lab.wasm'].map(beside).find(it => fs.existsSync(it));
if (!code) {
  console.error('lab: there is no lab.wasm; tools/page makes it');
  process.exit(5);
}
const words = process.argv.slice(2);
/** @type {Record<string, Uint8Array>} */
const files = {};
for (const word of words)
  if (fs.statSync(word, { throwIfNoEntry: false })?.isFile()) files[word] = fs.readFileSync(word);
const helps = words.some(word => word === '--help' || word === '-h') || words[0] === 'help' || !words.length;
const reads = !helps && (words[0] === 'live' || words.includes('-') || !Object.keys(files).length);
const input = reads && !process.stdin.isTTY ? fs.readFileSync(0) : new Uint8Array(0);
const module = new WebAssembly.Module(fs.readFileSync(code));
try {
  const answer = run_program(module, ['lab', ...words], files, input);
  fs.writeSync(2, answer.err);
  fs.writeFileSync(1, answer.out);
  process.exitCode = answer.status;
} catch (error) {
  console.error(`lab: the program stopped: ${error}`);
  process.exitCode = 4;
}
