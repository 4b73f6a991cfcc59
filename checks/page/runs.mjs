// Runs of the program in a browser, each with words, files and an input, and what must come of them: what the
// repository holds, what the native program answers, and what is reported without memory.
import assert from 'node:assert/strict';
import { spawnSync } from 'node:child_process';
import fs from 'node:fs';
import os from 'node:os';
import path from 'node:path';

/** Starts the page's own worker over the page's own module, for questions from outside. */
const BEGIN = `(async () => {
  const raw = Uint8Array.from(atob(document.getElementById('lab.wasm').textContent.trim()), c => c.charCodeAt(0));
  const stream = new Blob([raw]).stream().pipeThrough(new DecompressionStream('gzip'));
  window.lab_code = new Uint8Array(await new Response(stream).arrayBuffer());
  const text = document.getElementById('worker.js').textContent;
  const worker = new Worker(URL.createObjectURL(new Blob([text], { type: 'text/javascript' }))), waits = new Map();
  worker.onmessage = event => { waits.get(event.data.id)?.(event.data); waits.delete(event.data.id); };
  worker.postMessage({ code: window.lab_code });
  let last = 0;
  window.lab_run = ({ words, files, input }) => new Promise(done => {
    const raw = Object.fromEntries(Object.entries(files).map(([name, it]) =>
      [name, Uint8Array.from(atob(it), c => c.charCodeAt(0))]));
    waits.set(++last, done);
    worker.postMessage({ id: last, words: ['lab', ...words], files: raw, input: input || '' });
  });
})()`;
/** What the browser answers to each case. */
export async function answers(browser, cases) {
  const all = [];
  if (!await browser.evaluate('Boolean(window.lab_run)')) await browser.evaluate(BEGIN);
  for (let at = 0; at < cases.length; at += 50)
    all.push(...await browser.evaluate(`(async cases => { const all = [];
      for (const it of cases) all.push(await window.lab_run(it));
      return all; })(${JSON.stringify(cases.slice(at, at + 50))})`));
  return all;
}
const base64 = raw => Buffer.from(raw).toString('base64');
const toml_in = folder => fs.readdirSync(folder).filter(name => name.endsWith('.toml')).sort();
const case_of = (words, name, text, input) => ({ words: [...words, name], files: { [name]: base64(text) }, input });

/** What crates/test_rows/data and docs/pictures hold: traces, refusals, callers' texts, pictures. */
export function stored_cases(top) {
  const data = path.join(top, 'crates/test_rows/data'), cases = [];
  for (const [folder, word, end] of [['scenarios', 'play', '.trace'], ['callers', 'callers', '.told']])
    for (const name of toml_in(path.join(data, folder))) {
      const file = path.join(data, folder, name), told = file.slice(0, -5) + end;
      if (fs.existsSync(told))
        cases.push({ ...case_of([word], name, fs.readFileSync(file)), told: fs.readFileSync(told, 'utf8') });
    }
  for (const picture of fs.readdirSync(path.join(top, 'docs/pictures')).filter(name => name.endsWith('.svg'))) {
    const name = picture.slice(0, -4) + '.toml', of_callers = name.startsWith('callers_');
    const file = of_callers ? path.join(data, 'callers', name.slice('callers_'.length)) : path.join(data, 'scenarios', name);
    if (fs.existsSync(file)) cases.push({ ...case_of(['draw'], name, fs.readFileSync(file)),
      told: fs.readFileSync(path.join(top, 'docs/pictures', picture), 'utf8') });
  }
  return cases;
}
export async function stored(browser, top) {
  const cases = stored_cases(top), got = await answers(browser, cases);
  const differ = cases.filter((it, i) => got[i].out + (got[i].status ? got[i].err : '') !== it.told);
  assert.deepEqual(differ.map(it => it.words.join(' ')), []);
  return `${cases.length} of ${cases.length} stored answers are the same`;
}

/** A row of numbers that look like chance and are the same each time. */
export function dice(seed) {
  let state = seed >>> 0;
  return below => {
    state = (Math.imul(state, 1664525) + 1013904223) >>> 0;
    return Math.floor(state / 4294967296 * below);
  };
}
const pick = (roll, list) => list[roll(list.length)];
/** A scenario of random steps over a small board: most of them are calls that fit to it. */
export function random_scenario(roll) {
  const threads = 1 + roll(4), number = () => roll(3), stage = () => pick(roll, ['"oob"', '"inband"']);
  const policy = () => pick(roll, ['"fifo 10"', '"fifo 20"', '"rr 10 500"', '"weak 5"', '"quota 0 7"', '"fifo 300"']);
  const forms = [
    () => `do = "attach", policy = ${policy()}, stage = ${stage()}`, () => 'do = "detach"', () => 'do = "pick"',
    () => `do = "begin_get", sem = ${number()}`, () => `do = "put", sem = ${number()}`, () => 'do = "finish"',
    () => `do = "request", line = ${roll(6)}, stage = ${stage()}, callback = ${roll(9)}`,
    () => `do = "arrive", line = ${roll(6)}`, () => `do = "stall", stage = ${stage()}`,
    () => `do = "unstall", stage = ${stage()}`, () => `do = "tick", delta = ${roll(2000000)}`,
    () => `do = "new_timer", callback = ${roll(8)}`, () => 'do = "start_timer", timer = 0, date = 100, interval = 50',
    () => `do = "claim", mutex = ${number()}, owner = ${roll(threads)}`, () => `do = "release", mutex = ${number()}`,
    () => `do = "post_flags", flags = 0, bits = ${roll(9)}`, () => 'do = "begin_take", flags = 0, kind = "of 3"',
    () => 'do = "write", xbuf = 0, way = "in", bytes = "0a0b"',
    () => 'do = "begin_read", xbuf = 0, way = "in", len = 3',
    () => `do = "set_stage", stage = ${stage()}`, () => `do = "rank_of", thread = ${roll(threads + 1)}`];
  const steps = Array.from({ length: 1 + roll(30) }, () => `  { who = ${roll(threads)}, ${pick(roll, forms)()} },`);
  return `limit = ${1 + roll(60)}\nstep = [\n${steps.join('\n')}\n]\n[board]\nthreads = ${threads}\nsems = [0, 1]\n`
    + 'flags = [0]\nxbufs = [[4, 4]]\nmutexes = ["normal", "recursive", "ceiling 30"]\ngroups = [50]\n';
}
/** A text with some bytes taken out, put in or changed. */
export function damaged(roll, text) {
  const bytes = [...Buffer.from(text)];
  const byte = () => roll(16) ? 32 + roll(95) : roll(256);
  for (let i = 1 + roll(4); i > 0; i--)
    bytes.splice(roll(bytes.length || 1), roll(5), ...Array.from({ length: roll(3) }, byte));
  return Buffer.from(bytes);
}
const WAYS = [['play'], ['play', '--json'], ['draw'], ['draw', '--perfetto'],
  ['check'], ['live'], ['callers'], ['play', '--limit', '3'], ['convert', '--lines'], ['convert', '--toml']];
const INPUT = 'ps\nT0 put sem=0\nT0 pick\nT1 begin_get sem=1\nT0 tick delta=7\n? claim\nT9 now\nT0 putt\nscenario\n';

/** N cases for the native program: the repository's texts, of tables and of lines, random ones, damaged ones. */
export function native_cases(top, count) {
  const roll = dice(20), cases = [], data = path.join(top, 'crates/test_rows/data/scenarios');
  const names = fs.readdirSync(data).filter(name => /\.(toml|trace)$/.test(name)).sort();
  const texts = names.map(name => fs.readFileSync(path.join(data, name)));
  for (let i = 0; i < count; i++) {
    const words = WAYS[i % WAYS.length], which = roll(3);
    const text = which === 0 ? pick(roll, texts) : which === 1 ? Buffer.from(random_scenario(roll))
      : damaged(roll, roll(2) ? random_scenario(roll) : pick(roll, texts));
    cases.push(case_of(words, 'scenario.toml', text, words[0] === 'live' ? INPUT : ''));
  }
  return cases;
}
/** What the native program answers to a case. */
function native_answer(lab, folder, it) {
  for (const [name, raw] of Object.entries(it.files))
    fs.writeFileSync(path.join(folder, name), Buffer.from(raw, 'base64'));
  const ran = spawnSync(lab, it.words, { cwd: folder, input: it.input || '', maxBuffer: 1 << 28 });
  return { status: ran.status, out: ran.stdout.toString(), err: ran.stderr.toString() };
}
export async function native(browser, top, lab, count) {
  const cases = native_cases(top, count), got = await answers(browser, cases), differ = [], statuses = new Map();
  const folder = fs.mkdtempSync(path.join(os.tmpdir(), 'page-native-'));
  cases.forEach((it, i) => {
    const wanted = native_answer(lab, folder, it), { status, out, err } = got[i];
    statuses.set(wanted.status, (statuses.get(wanted.status) || 0) + 1);
    if (status !== wanted.status || out !== wanted.out || err !== wanted.err) differ.push(it);
  });
  fs.rmSync(folder, { recursive: true });
  if (differ.length) fs.writeFileSync(path.join(os.tmpdir(), 'page-differ.json'), JSON.stringify(differ));
  assert.equal(differ.length, 0, `${differ.length} of ${count} differ; they are in ${os.tmpdir()}/page-differ.json`);
  const kinds = [...statuses].map(([status, n]) => `${n} with status ${status}`).join(', ');
  return `${count} of ${count} runs are answered as the native program answers them (${kinds})`;
}

/** The module with at most so many pages of memory. */
export function with_pages(code, most) {
  const number = at => {
    let value = 0, shift = 0;
    for (;;) {
      const byte = code[at++];
      value |= (byte & 127) << shift;
      shift += 7;
      if (byte < 128) return [value, at];
    }
  };
  const put = value => value < 128 ? [value] : [value & 127 | 128, ...put(value >> 7)];
  for (let at = 8; at < code.length;) {
    const kind = code[at], [size, start] = number(at + 1);
    if (kind === 5) {
      const part = [1, 1, ...put(number(start + 2)[0]), ...put(most)];
      return Buffer.concat([code.subarray(0, at), Buffer.from([5, part.length, ...part]), code.subarray(start + size)]);
    }
    at = start + size;
  }
  throw new Error('the module has no memory');
}
/** Without memory a run says so, with status 4, and the next one is answered. */
export async function memory(browser, code, puts) {
  const small = base64(with_pages(code, 128)), answer = await browser.evaluate(`(async () => {
    const code = Uint8Array.from(atob(${JSON.stringify(small)}), c => c.charCodeAt(0));
    const text = document.getElementById('worker.js').textContent;
    const worker = new Worker(URL.createObjectURL(new Blob([text], { type: 'text/javascript' }))), answers = [];
    const done = new Promise(all => { worker.onmessage = event => {
      if (!event.data.compiled) answers.push(event.data);
      if (answers.length === 2) all(answers);
    }; });
    worker.postMessage({ code });
    worker.postMessage({ id: 1, words: ['lab', 'play', 'big.toml'], files: { 'big.toml': ${JSON.stringify(puts)} } });
    worker.postMessage({ id: 2, words: ['lab', 'help', 'put'], files: {} });
    return (await done).map(it => [it.status, it.err, it.out.slice(0, 13)]);
  })()`);
  assert.deepEqual(answer, [[4, 'lab: no memory\n', ''], [0, '', 'T0 put sem=0\n']]);
  return 'without memory: "lab: no memory", status 4, and the next run is answered';
}
