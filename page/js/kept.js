// Texts that are kept in this browser, each by its lesson; files that are opened and saved; links.
import { $, now } from './now.js';
import { packed, unpacked } from './program.js';

export const kept = {
  /** @param {string} key */
  get(key) {
    try { return localStorage.getItem('evl ' + key); } catch { return null; }
  },
  /** @param {string} key @param {string | null} text */
  set(key, text) {
    try {
      if (text === null) localStorage.removeItem('evl ' + key);
      else localStorage.setItem('evl ' + key, text);
      return true;
    } catch { return false; }
  },
};
/** What this tab read or wrote last of each text: another tab of the page may have written since. @type {Map<string, string | null>} */
const known = new Map();
/** What is kept of a lesson's text or callbacks, or null; from now on this tab knows it. @param {any} lesson @param {string} id */
export function kept_text(lesson, id) {
  const key = `${id} ${lesson.key}`, text = kept.get(key);
  known.set(key, text);
  return text;
}
/** What another tab has written to a key that this tab knew otherwise, or null. @param {string} key @param {string | null} mine */
function of_other_tab(key, mine) {
  const there = kept.get(key);
  return known.has(key) && there !== known.get(key) && there !== mine ? there : null;
}
/**
 * Keeps both texts of the lesson, where they are not its own. Answers what another tab had written there meanwhile, so
 * that it is not lost, or null.
 * @returns {{ text: string, bank: string } | null}
 */
export function keep_texts() {
  if (!now.lesson) return null;
  const own = { text: now.lesson.text, bank: now.lesson.bank || '' }, other = { ...own };
  let well = true, differs = false;
  for (const id of /** @type {('text' | 'bank')[]} */ (['text', 'bank'])) {
    const key = `${id} ${now.lesson.key}`, mine = $(id).value === own[id] ? null : $(id).value;
    const there = of_other_tab(key, mine);
    other[id] = there ?? kept.get(key) ?? own[id];
    differs ||= there !== null;
    well = kept.set(key, mine) && well;
    // (a full store keeps what was there)
    known.set(key, kept.get(key));
  }
  const changed = $('text').value !== own.text || $('bank').value !== own.bank;
  $('kept').textContent = !well ? 'not saved: this browser stores nothing for this page' : changed ? 'saved' : '';
  $('back-to').disabled = !changed;
  return differs ? other : null;
}
/** Of a key of the browser's store that another tab has written: the text or the callbacks of the lesson, or nothing. */
export const box_of_key = (/** @type {string | null} */ key) =>
  ['text', 'bank'].find(id => key === `evl ${id} ${now.lesson?.key}`);
/** So many lines a browser replaces by its own undo in no time; of more it makes seconds. */
const MOST_UNDONE = 100;
/** The last text that was put in past the browser's undo: its box, and what was there before and after.
 * @type {{ box: any, had: string, is: string }} */
let replaced = { box: null, had: '', is: '' };
/** Puts a text into a box so that undo can take it back; only what differs is replaced. @param {string} text */
export function put_text(/** @type {any} */ box, text, from = 0, to = box.value.length) {
  const had = box.value, wanted = had.slice(0, from) + text + had.slice(to), end = from + text.length;
  if (had === wanted) return;
  const least = Math.min(had.length, wanted.length);
  let same = 0, rest = 0;
  while (same < least && had[same] === wanted[same]) same++;
  while (rest < least - same && had[had.length - 1 - rest] === wanted[wanted.length - 1 - rest]) rest++;
  const old = had.slice(same, had.length - rest), part = wanted.slice(same, wanted.length - rest);
  const active = document.activeElement, is_long = (old + part).split('\n').length > MOST_UNDONE;
  box.focus({ preventScroll: true });
  box.setSelectionRange(same, had.length - rest);
  const done = !is_long && box.offsetParent && document.execCommand(part ? 'insertText' : 'delete', false, part);
  if (!done || box.value !== wanted) {
    box.value = wanted;
    replaced = { box, had, is: wanted };
  }
  box.setSelectionRange(end, end);
  if (active instanceof HTMLElement && active !== box) active.focus({ preventScroll: true });
}
/** Control and Z after what the browser's own undo does not know. @param {any} event */
export function undo_key(event) {
  const { box, had, is } = replaced, it = event.target;
  if (event.key !== 'z' || !(event.ctrlKey || event.metaKey) || it !== box || it.value !== is) return false;
  event.preventDefault();
  replaced = { box, had: is, is: had };
  it.value = had;
  it.dispatchEvent(new Event('input'));
  return true;
}
/** @param {string} name @param {string} text */
export function save_file(name, text) {
  const link = document.createElement('a');
  link.href = URL.createObjectURL(new Blob([text], { type: 'text/plain' }));
  link.download = name;
  link.click();
  setTimeout(() => URL.revokeObjectURL(link.href), 1000);
}
/** Copies a text where the browser lets a page do so. @param {string} text */
export const copied = text =>
  navigator.clipboard ? navigator.clipboard.writeText(text).then(() => true, () => false) : Promise.resolve(false);
/** Where this page is. */
export const own_place = () => location.href.split('#')[0];
/** A link: of a lesson by its name, of a text or an exercise with all of it, packed. @param {string} kind */
export const link_of = async (kind, /** @type {any} */ it, place = own_place()) =>
  `${place}#${kind}=${kind === 'lesson' ? it.name : await packed(JSON.stringify(it))}`;
/** What the address has in it: a lesson's name, a text, or an exercise; null for nothing. */
export async function handed() {
  const it = location.hash.match(/^#(lesson|text|exercise)=([\w-]+)$/);
  if (!it) return null;
  const [, kind, name] = it, read = kind === 'lesson' ? { name, text: '' } : JSON.parse(await unpacked(name));
  if (typeof read.text !== 'string') throw new Error('it has no text');
  return { kind, read };
}
/** A number of all the bytes of a text (FNV-1a, of 64 bits): two texts that differ anywhere have two. @param {string} text */
export function hash_of(text) {
  let hash = 0xcbf29ce484222325n;
  for (const byte of new TextEncoder().encode(text)) hash = BigInt.asUintN(64, (hash ^ BigInt(byte)) * 0x100000001b3n);
  return hash.toString(16).padStart(16, '0');
}
