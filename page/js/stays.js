// What of an exercise has to stay: its board and its steps, each compared with those of an answer as the program reads
// them. So tables, lines, the order of keys, values that are left out, comments and layout are the same.
import { bare_of, is_lines, keys_of, said_of, HOLE, HOLE_LINE } from './text.js';

/**
 * A step: its thread, word and keys, each a text, in which an exercise may have a hole. `free`: a hole that may hold more
 * keys. A gap is a hole for any number of steps.
 * @typedef {{ setup: boolean, who: string, word: string, keys: Map<string, string>, free?: boolean, gap?: boolean }} Step
 * @typedef {{ board: Map<string, string>, steps: Step[] }} Parts
 * @typedef {(word: string, key: string) => string | undefined} Usual  the value of a key that is left out
 */
const GAP = { setup: false, who: '', word: '', keys: new Map(), gap: true };
/** A value as lines have it: without quotes, lists with one blank after each comma. @param {string} value */
const plain_value = value => value.replace(/["']/g, '').replace(/\s*,\s*/g, ', ').replace(/\[\s+/g, '[')
  .replace(/[,\s]+\]/g, ']').trim();
/** @param {string} word @param {string[][]} pairs @returns {Map<string, string>} */
const keys_from = (word, pairs) => new Map(pairs.filter(([key]) => !key.includes(HOLE) && !['do', 'who', 'expect'].includes(key))
  .map(([key, value]) => [key, plain_value(value) || (key === 'bytes' ? '-' : '')]));

/** Where a value ends: at a comma or the end of its line, but not in quotes or brackets. @param {string} text */
function value_end(text, from = 0) {
  let depth = 0, quoted = '';
  for (let i = from; i < text.length; i++) {
    const c = text[i];
    if (quoted) {
      if (c === '\\' && quoted === '"') i++;
      else if (c === quoted) quoted = '';
    } else if (c === '"' || c === "'") quoted = c;
    else if (c === '[' || c === '{') depth++;
    else if (c === ']' || c === '}') {
      if (!depth--) return i;
    } else if (!depth && (c === '\n' || c === ',')) return i;
  }
  return text.length;
}
/** The keys of a table with their values, and what is between them. @param {string} text */
function pairs_in(text) {
  /** @type {[string, string][]} */
  const pairs = [];
  const form = /([\w-]+)\s*=\s*/g;
  let between = '', at = 0;
  for (let it = form.exec(text); it; it = form.exec(text)) {
    const end = value_end(text, form.lastIndex);
    between += text.slice(at, it.index);
    pairs.push([it[1], text.slice(form.lastIndex, end).trim()]);
    form.lastIndex = at = end;
  }
  return { pairs, between: between + text.slice(at) };
}
/** A step of a table. @param {string} text @returns {Step} */
function step_of_table(text, setup = false) {
  const { pairs, between } = pairs_in(text), by = new Map(pairs), word = plain_value(by.get('do') || '');
  const free = between.includes(HOLE) || pairs.some(([key]) => key.includes(HOLE));
  if (!pairs.length && free) return GAP;
  return { setup, who: plain_value(by.get('who') || ''), word, keys: keys_from(word, pairs), ...free ? { free } : {} };
}
/** A step of a line, as `T1 begin_get sem=0`. @param {string} line @returns {Step} */
export function step_of_line(line) {
  const setup = /^setup\s/.test(line), says = line.replace(/^setup\s+/, '').replace(/^(\d+|-)\s+(?=T)/, '').replace(/ -> .*$/, '');
  const [head, ...rest] = says.split(/ (?=\w+=)/), [who, word = '', ...more] = head.split(/\s+/);
  if (says.trim() === HOLE) return GAP;
  const free = word === HOLE || more.some(it => it.includes(HOLE));
  return { setup, who: who.replace(/^T/, ''), word, keys: keys_from(word, keys_of(rest.join(' '))), ...free ? { free } : {} };
}
/** A text of lines. @param {string} text @returns {Parts} */
function parts_of_lines(text) {
  const lines = text.split('\n').map(line => line.trim() === HOLE_LINE ? HOLE : said_of(line)).filter(Boolean), board = new Map();
  for (const line of lines) {
    const [, limit, keys = ''] = line.match(/^(?:limit\s+(\S+)|board\s*(.*))$/) || [];
    if (limit) board.set('limit', limit);
    for (const [key, value] of keys_of(keys)) board.set(key, plain_value(value));
  }
  const steps = lines.filter(line => /^(setup\s+)?((\d+|-)\s+)?T/.test(line) || line === HOLE).map(step_of_line);
  return { board, steps: [...steps.filter(it => it.setup), ...steps.filter(it => !it.setup)] };
}
/** What is above the first heading: the limit, a board and a list of steps may be there. @param {string} text @param {Parts} parts */
function read_top(text, parts) {
  for (const [key, value] of pairs_in(text).pairs) {
    if (key === 'limit') parts.board.set(key, plain_value(value));
    else if (key === 'board') for (const [name, it] of pairs_in(value.slice(1, -1)).pairs) parts.board.set(name, plain_value(it));
    else if (key === 'step' || key === 'setup')
      parts.steps.push(...[...value.matchAll(/\{([^{}]*)\}/g)].map(it => step_of_table(it[1], key === 'setup')));
  }
}
/** The sections of a text of tables: each heading with what is below it; a gap is a section of its own. @param {string} text */
function sections_of(text) {
  const found = [{ head: '', text: '' }], lines = text.split('\n');
  let open = 0;
  for (const [i, line] of lines.entries()) {
    const bare = bare_of(line).trim(), last = found[found.length - 1], head = bare.match(/^\[\[?\s*(\w+)\s*\]\]?$/);
    const is_gap = line.trim() === HOLE_LINE, in_table = /\S\n$/.test(last.text) && /step|setup/.test(last.head);
    if (head && !open) found.push({ head: head[1], text: '' });
    else if (is_gap && open) last.text += `{ ${HOLE} },\n`;
    else if (!is_gap) last.text += bare + '\n';
    // Right below a key more keys may come, and before a key of the same table no step.
    else if (in_table) last.text += HOLE + '\n';
    const has_more = in_table && /^\s*\w+\s*=/.test(lines[i + 1] || '');
    if (is_gap && !open && !has_more) found.push({ head: 'gap', text: '' }, { head: '', text: '' });
    if (!head) for (const c of bare.replace(/"[^"]*"|'[^']*'/g, '')) open += +(c === '[') - +(c === ']');
  }
  return found;
}
/**
 * The board and the steps of a text, with its holes, in the order in which they are made.
 * @param {string} text @returns {Parts}
 */
export function parts_of(text) {
  if (is_lines(text)) return parts_of_lines(text);
  /** @type {Parts} */
  const parts = { board: new Map(), steps: [] };
  for (const it of sections_of(text)) {
    if (it.head === '') read_top(it.text, parts);
    else if (it.head === 'gap') parts.steps.push(GAP);
    else if (it.head === 'step' || it.head === 'setup') parts.steps.push(step_of_table(it.text, it.head === 'setup'));
    else if (it.head === 'board') for (const [key, value] of pairs_in(it.text).pairs) parts.board.set(key, plain_value(value));
  }
  return parts;
}

/** Whether a value is as an exercise has it, whatever is in its holes. @param {string} form @param {string} value */
function is_value(form, value) {
  const parts = form.split(HOLE).map(it => it.replace(/[.*+?^${}()|[\]\\]/g, '\\$&'));
  return new RegExp(`^${parts.join('.*')}$`, 's').test(value);
}
/** Whether a step is as an exercise has it. @param {Step} form @param {Step} it @param {Usual} usual */
export function is_step(form, it, usual) {
  const value = (/** @type {string} */ key) => it.keys.get(key) ?? usual(it.word, key);
  const more = [...it.keys].filter(([key, is]) => !form.keys.has(key) && is !== usual(it.word, key));
  return form.setup === it.setup && is_value(form.who, it.who) && is_value(form.word, it.word) && (form.free || !more.length)
    && [...form.keys].every(([key, wanted]) => is_value(wanted, value(key) ?? ''));
}
/** A step as a line, without what is usual. @param {Step} it @param {Usual} usual */
const line_of_step = (it, usual) => [`${it.setup ? 'setup ' : ''}T${it.who} ${it.word}`,
  ...[...it.keys].filter(([key, value]) => value !== usual(it.word, key)).map(([key, value]) => `${key}=${value}`)].join(' ');
/** Why a board isn't as an exercise has it, or nothing. @param {Map<string, string>} form @param {Map<string, string>} board */
export function board_trouble(form, board) {
  const usual = (/** @type {string} */ key) => key === 'limit' ? '1000' : '[]';
  const key = [...new Set([...form.keys(), ...board.keys()])]
    .find(key => !is_value(form.get(key) ?? usual(key), board.get(key) ?? usual(key)));
  return key === undefined ? '' : `The board of the exercise has to stay: ${key}=${form.get(key) ?? usual(key)}`;
}
/**
 * Why steps aren't those of an exercise, or nothing: each has to be there, in order, and others only in its gaps.
 * @param {Step[]} forms @param {Step[]} steps @param {Usual} usual
 */
export function steps_trouble(forms, steps, usual) {
  // Which numbers of the steps the forms so far may have used up; of them the greatest is where a fault is reported.
  let used = new Set([0]);
  for (const form of forms) {
    const least = Math.min(...used), next = new Set();
    if (form.gap) for (let n = least; n <= steps.length; n++) next.add(n);
    else for (const n of used) if (n < steps.length && is_step(form, steps[n], usual)) next.add(n + 1);
    if (!next.size) {
      const here = steps[least], is_later = steps.some((it, n) => n > least && is_step(form, it, usual));
      const is_added = used.size === 1 && is_later && !forms.some(one => !one.gap && is_step(one, here, usual));
      return is_added ? `This step may not be added: ${line_of_step(here, usual)}`
        : `This step of the exercise has to stay${is_later ? ' in its place' : ''}: ${line_of_step(form, usual)}`;
    }
    used = next;
  }
  return used.has(steps.length) ? '' : `This step may not be added: ${line_of_step(steps[Math.max(...used)], usual)}`;
}

/** @param {number} n */
const times_text = n => n === 1 ? 'once' : `${n} times`;
/**
 * Why a thread's calls aren't those that it has to make, in any order, or nothing.
 * @param {string[]} wanted @param {Step[]} steps @param {Usual} usual
 */
function calls_trouble(wanted, steps, usual) {
  const forms = wanted.map(step_of_line), made = steps.filter(it => !it.setup && it.who === forms[0].who);
  const extra = made.find(it => !forms.some(form => is_step(form, it, usual)));
  for (const line of new Set(wanted)) {
    const count = wanted.filter(it => it === line).length, n = made.filter(it => is_step(step_of_line(line), it, usual)).length;
    if (n !== count) return `${line} has to be there ${times_text(count)}, and is there ${n ? times_text(n) : 'not at all'}.`;
  }
  return extra ? `This step may not be added: ${line_of_step(extra, usual)}` : '';
}
/** Why a step comes before one that has to come first, or nothing. @param {string[]} pair @param {Step[]} steps @param {Usual} usual */
function then_trouble(pair, steps, usual) {
  const [first, second] = pair;
  const at = (/** @type {string} */ line) => {
    const form = { ...step_of_line(line), free: true };
    return steps.flatMap((it, i) => is_step(form, it, usual) ? [i] : []);
  };
  const [before, after] = [at(first), at(second)];
  return before.length && after.length && Math.max(...before) > Math.min(...after) ? `${second} has to come after ${first}.` : '';
}
/**
 * Why one of the things that have to stay didn't: the board, what is set up, the steps of a thread.
 * @param {string} what @param {Parts} given @param {Parts} read @param {Usual} usual
 */
function stay_trouble(what, given, read, usual) {
  if (what === 'board') return board_trouble(given.board, read.board);
  const is_of = (/** @type {Step} */ it) => what === 'setup' ? it.setup : !it.setup && `T${it.who}` === what;
  return steps_trouble(given.steps.filter(is_of), read.steps.filter(is_of), usual);
}
/**
 * What an answer breaks of the rules of an exercise, or nothing. `stays`: the board, what is set up, a thread's steps;
 * `calls`: by thread all calls that it has to make, in any order, and no others; `then`: which step comes after which.
 * @param {{ stays?: string[], calls?: Record<string, string[]>, then?: string[][] }} rules @param {Parts} given
 * @param {Parts} read @param {Usual} usual
 */
export function rules_trouble({ stays = [], calls = {}, then = [] }, given, read, usual) {
  const made = Object.entries(calls).map(([who, list]) => list.map(it => `${who} ${it}`));
  return [...stays.map(what => stay_trouble(what, given, read, usual)),
    ...made.map(list => calls_trouble(list, read.steps, usual)),
    ...then.map(pair => then_trouble(pair, read.steps, usual))].find(Boolean) || '';
}
/**
 * What of a whole exercise did not stay, or nothing: only its holes may change.
 * @param {Parts} given @param {Parts} read @param {Usual} usual
 */
export const whole_trouble = (given, read, usual) =>
  board_trouble(given.board, read.board) || steps_trouble(given.steps, read.steps, usual);
