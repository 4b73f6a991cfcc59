// One's own texts: what was begun here, opened from a file, brought by a link, or taken from an outcome. They stand
// above the lessons and are kept in this browser, until they are removed.
import { $, escaped, now } from './now.js';
import { exercise_lesson } from './exercise.js';
import { hash_of, kept } from './kept.js';

const MOST = 60, FRESH = '[board]\nthreads = 2\nsems = [0]\n\n[[step]]\ndo = "put"\nwho = 0\nsem = 0\n';
const SIDES = ['text', 'bank'];
/** What was removed since the page was opened, the last one first, each with its place and what was kept of it. @type {any[]} */
const dropped = [];
/** @returns {any[]} */
function read_mine() {
  try {
    const read = JSON.parse(kept.get('mine') || '[]');
    return Array.isArray(read) ? read.filter(it => typeof it?.key === 'string' && typeof it.text === 'string') : [];
  } catch { return []; }
}
const forget = (/** @type {any} */ it) => { for (const id of SIDES) kept.set(`${id} ${it.key}`, null); };
/** Keeps the list, and of a longer one the newest. @param {any[]} list */
function store(list) {
  list.slice(MOST).forEach(forget);
  kept.set('mine', JSON.stringify(list.slice(0, MOST)));
}
/** @param {any} it */
const lesson_of = it => ({ ...(it.exercise ? exercise_lesson(it.exercise) : it), key: it.key, title: it.title, own: true });
/** @param {string | null} key */
export function mine_of(key) {
  const found = read_mine().find(it => it.key === key);
  return found ? lesson_of(found) : null;
}

/** Removes a text; it can be brought back until the page is left. @param {string} key */
function drop(key) {
  const list = read_mine(), at = list.findIndex(it => it.key === key);
  if (at < 0) return;
  dropped.unshift({ at, it: list[at], was: SIDES.map(id => kept.get(`${id} ${key}`)) });
  forget(list[at]);
  store(list.filter(it => it.key !== key));
}
/** Brings back what was removed last, with what was written into it. */
function undo_drop() {
  const { at, it, was } = dropped.shift(), list = read_mine().filter(one => one.key !== it.key);
  store([...list.slice(0, at), it, ...list.slice(at)]);
  SIDES.forEach((id, i) => kept.set(`${id} ${it.key}`, kept.get(`${id} ${it.key}`) ?? was[i]));
}
/** Shows the list of one's own texts. @param {(it: any) => void} open */
export function show_mine(open) {
  const list = read_mine(), box = $('mine'), [gone] = dropped;
  box.innerHTML = `<h2>My texts</h2>${list.map((it, i) => `<div class="row"><button data-key="${escaped(it.key)}" `
    + `data-n="${i}">${escaped(it.title)}</button><button class="drop" data-drop="${i}" `
    + `aria-label="Remove ${escaped(it.title)}" title="Remove">×</button></div>`).join('')}`
    + (gone ? `<p role="status">Removed: ${escaped(gone.it.title)} <button id="undo-drop">Undo</button></p>` : '')
    + '<button id="new-text">+ New text</button>'
    + (list.length < MOST ? '' : `<p class="dim">The newest ${MOST} are kept: one more takes the place of the oldest.</p>`);
  box.onclick = (/** @type {any} */ event) => {
    const { n, drop: gone } = event.target.dataset, { id } = event.target;
    if (n) return open(lesson_of(list[n]));
    if (id === 'new-text') return open(new_text());
    if (gone) drop(list[gone].key);
    else if (id === 'undo-drop') undo_drop();
    else return;
    show_mine(open);
  };
}
/** Adds a text to one's own, or puts it in the place of the one with its key. @param {any} lesson */
export function add_mine(lesson) {
  if (!lesson.own) return;
  const { key, title, text, bank, exercise } = lesson, list = read_mine(), at = list.findIndex(it => it.key === key);
  const it = { key, title, text, ...(bank ? { bank } : {}), ...(exercise ? { exercise } : {}) };
  store(at < 0 ? [it, ...list] : list.map((old, i) => i === at ? it : old));
}
/** Whether one's own text is in the list: one that was removed may be open still. @param {any} lesson */
export const is_listed = lesson => !lesson.own || read_mine().some(it => it.key === lesson.key);
/** All that was given of a text, whatever it is called. @param {any} it */
const given_of = it => JSON.stringify([it.text, it.bank || '', it.exercise || null]);
/** Whether something was written into a text. @param {any} it */
const is_edited = it => SIDES.some(id => kept.get(`${id} ${it.key}`) !== null);
/** The first of a name, the name with 2, with 3, .. that is not taken. @param {Set<string>} taken @param {(n: number) => string} name */
function free_name(taken, name) {
  let n = 1;
  while (taken.has(name(n))) n++;
  return name(n);
}
/**
 * A text that comes from elsewhere, as one's own: the one that was given with just this content, or else a new one, whose
 * key has a hash of the content, so that it takes no other one's place.
 * @param {string} from  a link, a file, .. @param {any} it  title, text, bank, exercise
 * @param {boolean} plain  whether it has to be as it was given: one that was written into stays beside it
 */
export function own_lesson(from, it, plain = false) {
  const list = read_mine(), given = given_of(it), same = list.filter(old => old.key.startsWith(`${from} `) && given_of(old) === given);
  const found = same.find(old => !plain || !is_edited(old));
  if (found) return lesson_of(found);
  const keys = new Set(list.map(old => old.key)), titles = new Set(list.map(old => old.title)), base = `${from} ${hash_of(given)}`;
  return { ...it, key: free_name(keys, n => n === 1 ? base : `${base} ${n}`),
    title: free_name(titles, n => n === 1 ? it.title : `${it.title} (${n})`), own: true };
}
function new_text() {
  const taken = new Set(read_mine().map(it => it.key));
  let number = 1;
  while (taken.has(`mine ${number}`) || kept.get(`text mine ${number}`) !== null) number++;
  return { key: `mine ${number}`, title: `My text ${number}`, text: FRESH, own: true };
}
/** The name of one's own text is changed in the head. @param {string} title */
export function rename(title) {
  const name = title.replace(/\s+/g, ' ').trim().slice(0, 80);
  if (!now.lesson.own || !name || name === now.lesson.title) return false;
  now.lesson = { ...now.lesson, title: name };
  add_mine(now.lesson);
  return true;
}
