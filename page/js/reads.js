// What the program printed, read: what was found in texts, lines of a trace, outcomes of orders, the list of calls.
import { HOLE } from './text.js';

export const FILE = 'scenario.toml', BANK = 'callbacks.toml';
/** @typedef {{ fault: boolean, bank?: boolean, line?: number, column: number, says: string, where: string }} Told */

/** A place in a text: bytes are counted there, characters here. @param {string[]} lines */
function place_in(lines, /** @type {number} */ line, /** @type {number} */ byte) {
  const whole = new TextEncoder().encode(lines[line - 1] || '');
  return { line: line - 1, column: new TextDecoder().decode(whole.slice(0, byte - 1)).length };
}
/**
 * What `lab check --json` found in a text and in its callbacks, each with its place: a fault, a warning at its step, or a
 * step that is answered otherwise than the text expects.
 * @param {string} out @param {string} text @param {{ from: number, to: number }[]} steps @returns {Told[]}
 */
export function read_notices(out, text, steps, callbacks = '') {
  const lines = { [FILE]: text.split('\n'), [BANK]: callbacks.split('\n') };
  return out.split('\n').filter(Boolean).map(line => {
    const it = JSON.parse(line), bank = it.file === BANK, own = bank ? 'callbacks, ' : '';
    const at = it.line ? place_in(lines[it.file], it.line, it.byte || 1)
      : { line: bank ? undefined : steps[it.step - 1]?.from, column: 0 };
    const where = it.line ? `${own}line ${it.line}` : it.step ? `step ${it.step}` : bank ? 'in the callbacks' : '';
    const hole = at.line !== undefined && lines[it.file][at.line]?.includes(HOLE), says = hole ? `a hole (${HOLE}) to fill` : it.says;
    return { fault: it.kind !== 'warning', ...bank ? { bank } : {}, ...at, says, where };
  });
}
/** What a part of the program says of a text that it refuses, line by line, without the way to all its faults. */
const lines_of_err = (/** @type {string} */ err) =>
  err.split('\n').filter(line => line && !/^lab check .* tells every fault$/.test(line));
/**
 * Why a part of the program refuses a text: what it says, and the place where it says one.
 * @param {string} err @param {string} text @returns {Told[]}
 */
export function read_refused(err, text) {
  return lines_of_err(err).map(line => {
    const says = line.replace(/^lab: /, '').replace(`${FILE}:`, '').trim(), place = says.match(/^(\d+):(?:(\d+):)? (.*)$/);
    if (!place) return { fault: true, column: 0, says, where: '' };
    return { fault: true, ...place_in(text.split('\n'), +place[1], +(place[2] || 1)), says: place[3], where: `line ${place[1]}` };
  });
}
/** The same in one line, which has no place where another says it. @param {string} err */
export function why_of(err) {
  const lines = lines_of_err(err).map(line => line.replace(/^lab: /, '').replace(`${FILE}: `, ''));
  return (lines.filter(line => !line.startsWith(`${FILE}:`)).pop() || lines.pop() || '').replace(/^\S+:\d+:\d+: /, '').trim();
}

/**
 * The lines of a trace: an entry with its number, thread, call and answer; a play of the entry above it; or another.
 * After `close` a text of callers has the core's own history, whose entries are counted anew.
 * @param {string} out @returns {any[]}
 */
export function read_trace(out) {
  let number = 0, closed = false;
  return out.split('\n').filter(Boolean).map(line => {
    closed ||= line.startsWith('close ->');
    if (closed) return { kind: 'board', number: 0, line };
    const it = line.match(/^(\d+|-) (T\d+) (\w+)(.*?) -> ([^|]*?)(?: \| (.*))?$/);
    if (!it) return line.startsWith('  ') ? { kind: 'play', number, line } : { kind: 'board', number: 0, line };
    number = it[1] === '-' ? number + 1 : +it[1];
    const [, , who, call, keys, answer, lock = ''] = it;
    return { kind: 'entry', number, who, call, keys: keys.trim(), answer, lock, line };
  });
}

/**
 * A part of what `lab orders` printed, without its first line: its notes, by what they begin with, and its scenario, which
 * orders of atomic steps have none of.
 * @param {string[]} rest
 */
function read_part(rest) {
  const end = rest.findIndex(line => !line.startsWith('# '));
  const notes = rest.slice(0, end < 0 ? rest.length : end).map(line => line.slice(2));
  const text = rest.slice(notes.length), till = text.findIndex(line => line.startsWith('# '));
  const by = (/** @type {string} */ key) => notes.filter(it => it.startsWith(key)).map(it => it.slice(key.length));
  const scenario = text.slice(0, till < 0 ? undefined : till).join('\n');
  return { notes, by, order: by('order: ')[0] || '', text: scenario.trim() && scenario + '\n' };
}
/** @param {string} part */
function read_state(part) {
  const [first, ...rest] = part.trimEnd().split('\n'), it = read_part(rest);
  const [, number, key, asks, found] = first.match(/^# state (\d+): (\w+): (.*): (.*)$/) || [];
  return { number, key, asks, found, order: it.order, text: it.text };
}
/** The lines of an outcome: who is stuck, what each caller is answered, and how all else is at the end. @param {string[]} told */
const told_parts = told => ({ told, stuck: told.filter(it => it.startsWith('stuck: ')).map(it => it.slice('stuck: '.length)),
  answers: told.filter(it => /^T\d+ ->/.test(it)), ends: told.filter(it => !/^(T\d+ ->|stuck: )/.test(it)) });
/** @param {string} part */
function read_outcome(part) {
  const [first, ...rest] = part.trimEnd().split('\n'), [, number, count] = first.match(/^# outcome (\d+): (\d+)/) || [];
  const { notes, order, text } = read_part(rest);
  return { number, count, ...told_parts(notes.filter(it => !it.startsWith('order: '))), order, text };
}
/**
 * What `lab orders` printed: how many orders, what may not be meant so, what was found of each question about moments,
 * and each outcome with its notes and its scenario. Nothing here says what is against what is asked.
 * @param {string} out
 */
export function read_report(out) {
  const [head, ...parts] = out.split(/^(?=# (?:outcome|state) \d+:)/m), found = head.match(/^# (\d+) orders?, \d+ outcomes?/m);
  const of = (/** @type {string} */ key) => parts.filter(it => it.startsWith(`# ${key} `));
  return { orders: found ? found[1] : '', doubts: [...head.matchAll(/^# warning: (.*)$/gm)].map(it => it[1]),
    states: of('state').map(read_state), outcomes: of('outcome').map(read_outcome) };
}
/** How a question about moments can be found: where it holds, where it doesn't. @type {Record<string, [string, string]>} */
const FOUND = { never_state: ['at no moment', 'at a moment'], sometimes: ['at a moment', 'at no moment'],
  always: ['at each moment', 'not at each moment'] };
/** @param {any} it @param {number} i */
function state_found(it, i) {
  const key = Object.keys(FOUND).find(key => key in it) || '', holds = it.holds;
  return { number: `${i + 1}`, key, asks: it[key], found: holds === null ? 'not known: cut off' : FOUND[key][holds ? 0 : 1],
    against: holds === false, order: it.order?.join(' ') || '', has_order: Boolean(it.order) };
}
/**
 * What `lab orders --json` printed: of each outcome and of each question about moments also whether it is against what is
 * asked. A number that is too great for this language stays a text.
 * @param {string} out
 */
export function read_found(out) {
  const it = JSON.parse(out.replace(/"orders":(\d{16,})/g, '"orders":"$1"'));
  return { orders: `${it.orders}`, whole: it.whole, outcomes_asked: it.outcomes_asked, states: it.states.map(state_found),
    outcomes: it.outcomes.map((/** @type {any} */ o, /** @type {number} */ i) => ({ number: `${i + 1}`, count: `${o.orders}`,
      against: o.against, ...told_parts(o.told), order: o.order.join(' '), has_order: true })) };
}

/** @typedef {{ kind: string, most: number | null, must: boolean, usual?: string, values: string[] }} Key */
/** @typedef {{ keys: Map<string, Key>, answers: string[] }} Call */
/**
 * The calls of `lab help --json`, each with its keys (whether each must be there, or else its usual value, and which values
 * a text can have there) and its answers, with a sample in place of a number; and the refusals that any call can be answered.
 * @param {string} out @returns {{ calls: Map<string, Call>, refusals: string[] }}
 */
export function read_calls(out) {
  const calls = new Map(), lines = out.split('\n').filter(Boolean).map(line => JSON.parse(line));
  for (const it of lines.filter(it => it.word)) {
    const keys = new Map(it.keys.map((/** @type {any} */ key) => [key.key,
      { kind: key.kind, most: key.most, must: key.default === null,
        ...key.default === null ? {} : { usual: String(key.default) }, values: key.values.map((/** @type {any} */ v) => JSON.stringify(v)) }]));
    const answers = it.answers.map((/** @type {string} */ one) => one.replace(/\bN\b/, '0').replace(/\bHEX\b/, '00'));
    calls.set(it.word, { keys, answers });
  }
  return { calls, refusals: lines.find(it => it.refusals)?.refusals || [] };
}
