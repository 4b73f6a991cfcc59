// What is offered while one types: words, keys and values of the program's own list of calls, for the text and the
// console. Arrow keys choose, Enter takes, Escape closes; Tab leaves the box, as everywhere.
import { $, escaped } from './now.js';
import { put_text } from './kept.js';
import { CALLERS_WORDS, is_lines } from './text.js';

/** The program's list of calls, and the refusals that each can be answered. @type {Map<string, import('./reads.js').Call>} */
let known_calls = new Map();
/** @type {string[]} */
let known_refusals = [];
/** @param {{ calls: Map<string, import('./reads.js').Call>, refusals: string[] }} list */
export function offer_calls({ calls, refusals }) {
  known_calls = calls;
  known_refusals = refusals;
}
/** The keys that name what a board has, and its keys that say how many. @type {Record<string, string>} */
const OF_BOARD = { sem: 'sems', flags: 'flags', xbuf: 'xbufs', mutex: 'mutexes', who: 'threads', thread: 'threads', owner: 'threads' };
const MOST_NUMBERS = 12;
/** How many of each the board of a text has, as far as it says so on one line. @param {string} text @param {string} key */
function count_on(text, key) {
  const of = OF_BOARD[key], said = text.match(new RegExp(`^\\s*${of}\\s*=\\s*(\\d+|\\[.*\\])|^\\s*board\\b.*\\b${of}=(\\d+|\\[.*?\\](?=\\s|$))`, 'm'));
  const value = said?.[1] || said?.[2] || '', items = value.replace(/^\[|\]$/g, '').replace(/\[[^\]]*\]/g, 'pair');
  return !of ? 0 : /^\d+$/.test(value) ? Number(value) : items.trim() ? items.split(',').filter(it => it.trim()).length : 0;
}
/** The numbers that a key can have on a board. @param {string} text @param {string} key */
const numbers_on = (text, key) => [...Array(Math.min(count_on(text, key), MOST_NUMBERS)).keys()].map(String);
/** The threads of a board, as a line begins with them; three where it says nothing of them. @param {string} text */
const threads_on = text => {
  const numbers = numbers_on(text, 'who');
  return (numbers.length ? numbers : ['0', '1', '2']).map(n => `T${n} `);
};
/** How the call of a word can be answered, in quotes. @param {string} word */
const answers_to = word => [...known_calls.get(word)?.answers || [], ...known_refusals].map(it => `"${it}"`);

const BOARD = ['threads', 'sems', 'flags', 'xbufs', 'mutexes', 'groups'], HEADS = ['[board]', '[[step]]'];
const BANK_HEADS = ['[[callback]]'];
/** @type {Record<string, string[]>} Values that the list of calls has none of. */
const VALUES = { mutexes: ['"normal"', '"recursive"', '"ceiling 50"'], always_ends: ['true'], ends_waits: ['true'],
  as_picked: ['true'], propagate: ['true'] };
const ORDERS_HEADS = ['[ask]', '[[setup]]', '[[step]]', '[board]'];
const ASK = ['always_ends', 'ends_waits', 'never', 'as_picked', 'never_state', 'sometimes', 'always', 'outcomes'], CALLBACK = ['accepts', 'do'];
const ACTIONS = ['every', 'post_sem', 'post_flags', 'bits', 'post_oob', 'propagate', 'stop_timer'];

/** What one step's table or line has: its word, and which keys. @param {string} text */
const step_of = text => ({ word: text.match(/\bdo\s*=\s*"(\w+)"/)?.[1] || '',
  has: new Set([...text.matchAll(/(\w+)\s*=/g)].map(it => it[1])) });
/** @param {string} word @param {Set<string>} has @param {string} sign */
const keys_left = (word, has, sign, more = /** @type {string[]} */ ([])) => {
  const call = known_calls.get(word), keys = call ? [...call.keys.keys()] : CALLERS_WORDS[word] || [];
  return ['do', 'who', ...keys, ...call ? more : []].filter(key => !has.has(key)).map(key => key + sign);
};
/** What a key of a call may be, by its kind, or by what the board has. @param {string} key @param {string} word @param {string} text */
function values_at(key, word, text) {
  const values = known_calls.get(word)?.keys.get(key)?.values || [], all = values.length ? values : numbers_on(text, key);
  return all.length ? all : undefined;
}
/** What a key may be; a pass has a name that a step gave it. @param {string} key @param {string} word */
function values_of(key, word, name, kind, text) {
  if (name === 'board' || name === 'ask' || name === 'callback') return VALUES[key];
  const words = [...known_calls.keys(), ...kind === 'orders' ? [] : Object.keys(CALLERS_WORDS)];
  if (key === 'do') return words.map(it => `"${it}"`);
  if (key === 'expect') return kind === 'play' ? answers_to(word) : undefined;
  if (key !== 'pass') return values_at(key, word, text);
  return [...new Set([...text.matchAll(/\bas\s*=\s*("[\w-]+")/g)].map(it => it[1]))];
}
/** How a step can be expected to be answered, behind an arrow. @param {string} call */
function offered_answers(call) {
  const word = call.split(' ')[1], typed = call.match(/ -> (\S*)$/)?.[1] || '';
  const words = answers_to(word).map(it => it.replace(/"/g, ''));
  return words.length > known_refusals.length ? { size: typed.length, words } : null;
}
/** What may come in a line of a text of lines, before the place. @param {string} line @param {string} text */
function offered_in_lines(line, text) {
  if (/(^|\s)#/.test(line)) return null;
  const call = line.replace(/^\s*(setup\s+)?((\d+|-)\s+)?/, ''), last = line.match(/\S*$/)?.[0] || '';
  const keys = ['limit', ...BOARD].filter(key => !line.includes(` ${key}=`)).map(key => key + '=');
  if (/^\s*board\s/.test(line)) return { size: last.length, words: keys };
  if (/ -> \S*$/.test(call)) return offered_answers(call);
  if (/\s/.test(call)) return offered_line(call, call.length, text);
  const heads = line.trim() === call ? ['board ', 'limit ', 'setup '] : [];
  return { size: call.length, words: [...threads_on(text), ...heads] };
}
/**
 * What may come at a place of a text: how many characters before it are replaced, and the words; in a task set nothing.
 * @param {string} text @param {number} at @param {string} kind
 */
export function offered(text, at, kind) {
  const line = text.slice(text.lastIndexOf('\n', at - 1) + 1, at), before = text.slice(0, at);
  if (kind === 'tasks') return null;
  if (is_lines(text)) return offered_in_lines(line, text);
  if (/#/.test(line.replace(/"[^"]*"?/g, ''))) return null;
  const head = line.match(/^\s*(\[+\w*)$/);
  const heads = kind === 'orders' ? ORDERS_HEADS : kind === 'bank' ? BANK_HEADS : HEADS;
  if (head) return { size: head[1].length, words: heads };
  const table = [...before.matchAll(/^\s*\[+\s*(\w+)\s*\]+/gm)].pop(), name = table ? table[1] : '';
  const inline = line.lastIndexOf('{') > line.lastIndexOf('}'), rest = text.slice(at);
  const step = inline ? line.slice(line.lastIndexOf('{')) + rest.split(/[}\n]/)[0]
    : before.slice(before.lastIndexOf('[[') + 1) + rest.split(/^\s*\[/m)[0];
  const { word, has } = step_of(step), value = line.match(/(\w+)\s*=\s*("[^"]*|\w*)$/);
  if (value) {
    const values = values_of(value[1], word, name, kind, text);
    return values ? { size: value[2].length, words: values } : null;
  }
  const item = name === 'board' && line.match(/^\s*(\w+)\s*=\s*\[.*?(?:\[|,)?\s*("[^"]*|)$/);
  if (item) return VALUES[item[1]] ? { size: item[2].length, words: VALUES[item[1]] } : null;
  const key = line.match(/(?:^|[{,])\s*(\w*)$/);
  if (!key) return null;
  const sign = ' = ', less = (/** @type {string[]} */ keys) => keys.filter(it => !has.has(it)).map(it => it + sign);
  has.delete(key[1]);
  const words = name === 'callback' ? (inline ? ACTIONS.map(it => it + sign) : less(CALLBACK))
    : name === 'board' ? less(kind === 'callers' ? [...BOARD, 'staxes'] : BOARD) : name === 'ask' ? less(ASK)
    : kind === 'bank' ? heads : inline || name === 'step' || name === 'setup' ? keys_left(word, has, sign, kind === 'play' ? ['expect'] : [])
    : ['limit = ', ...HEADS, ...text.trim() === line.trim() ? ['board threads='] : []];
  return { size: key[1].length, words };
}
/** What may come in a line of the console, over the board of a text. @param {string} line @param {number} at */
export function offered_line(line, at, text = '') {
  const parts = line.slice(0, at).split(' '), last = parts[parts.length - 1];
  const of = known_calls.get(parts[1]), after = parts[0] === '?' ? '' : ' ';
  if (parts.length === 1) return { size: last.length, words: [...threads_on(text), 'ps', 'ps all', 'undo', 'scenario', '? '] };
  if (parts.length === 2) return { size: last.length, words: [...known_calls.keys()].map(it => it + after) };
  const value = last.match(/^(\w+)=(.*)$/), has = new Set(parts.slice(2, -1).map(it => it.split('=')[0]));
  if (!of) return null;
  if (!value) return { size: last.length, words: keys_left(parts[1], has, '=').slice(2) };
  const values = values_at(value[1], parts[1], text)?.map(it => it.replace(/"/g, ''));
  return values ? { size: value[2].length, words: values } : null;
}

/** @type {any} The open list: its box, words, place and choice. */
let open = null;
export function close_offers() {
  open = null;
  $('offers').hidden = true;
  for (const id of ['text', 'bank', 'line']) $(id).removeAttribute('aria-activedescendant');
}
function show_offers() {
  const { box, words, chosen, place } = open, list = $('offers'), from = Math.max(0, chosen - 7);
  const option = (/** @type {string} */ it, /** @type {number} */ i) => `<div role="option" id="offer-${i}" `
    + `data-n="${from + i}" aria-selected="${from + i === chosen}">${escaped(it)}</div>`;
  const more = words.length > from + 8 ? '<div class="dim">and more</div>' : '';
  list.innerHTML = words.slice(from, from + 8).map(option).join('') + more;
  list.hidden = false;
  const high = list.offsetHeight, top = place.bottom + high > innerHeight ? place.top - high : place.bottom;
  list.style.left = Math.max(0, Math.min(place.left, innerWidth - list.offsetWidth - 4)) + 'px';
  list.style.top = top + 'px';
  box.setAttribute('aria-activedescendant', `offer-${chosen - from}`);
}
/** Offers what fits to what was typed. @param {any} box @param {any} found @param {() => DOMRect} place_of */
export function offer(box, found, place_of, asked = false) {
  close_offers();
  if (!found || box.selectionStart !== box.selectionEnd) return;
  const at = box.selectionStart, typed = box.value.slice(at - found.size, at), bare = typed.replace(/^"/, '');
  const words = found.words.filter((/** @type {string} */ it) => it.replace(/^"/, '').startsWith(bare));
  const whole = words.some((/** @type {string} */ it) => it.replace(/["\s=]/g, '') === bare);
  if (!words.length || (!asked && (whole || !typed))) return;
  open = { box, words, chosen: 0, size: found.size, place: place_of() };
  show_offers();
}
/** @param {number} n */
export function take_offer(n) {
  const { box, words, size } = open, at = box.selectionStart, word = words[n];
  const closes = word.startsWith('"') && box.value[at] === '"';
  close_offers();
  put_text(box, word, at - size, at + (closes ? 1 : 0));
  box.dispatchEvent(new Event('input'));
}
/** A key while something is offered; whether it was for the list. @param {any} event */
export function offer_key(event) {
  if (!open || event.target !== open.box) return false;
  const by = { ArrowUp: -1, ArrowDown: 1 }[event.key];
  if (by && !event.altKey) {
    open.chosen = (open.chosen + by + open.words.length) % open.words.length;
    show_offers();
  } else if (event.key === 'Enter') take_offer(open.chosen);
  else if (event.key === 'Escape') close_offers();
  else return false;
  event.preventDefault();
  event.stopPropagation();
  return true;
}
