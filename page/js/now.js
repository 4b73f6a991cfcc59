// What the page holds at a moment: one object that its modules share, and a few words for its elements.

/**
 * The lesson; an outcome of orders that is looked at; the machine that was played last, or that of callers, and of
 * which lesson; the text's kind and steps; what is reported of it; the trace, its number of steps, the step looked at.
 * @type {{ lesson: any, viewed: any, machine: any, callers: any, played: string, kind: string, steps: any[],
 *   told: any[], entries: any[], count: number, shown: number, turn: number }}
 */
export const now = { lesson: null, viewed: null, machine: null, callers: null, played: '', kind: 'play', steps: [],
  told: [], entries: [], count: 0, shown: 0, turn: 0 };

/** So wide is a window where one thing is shown at a time. */
export const NARROW = 760;
/** @param {string} id @returns {any} */
export const $ = id => document.getElementById(id);
/** @param {string} selector @returns {any[]} */
export const all = selector => [...document.querySelectorAll(selector)];
/** @param {string} text */
export const escaped = text => text.replace(/\0/g, '\ufffd').replace(/[&<>"]/g, c => `&#${c.charCodeAt(0)};`);
/** @param {string} id @param {string} name @param {(event: any) => void} does */
export const on = (id, name, does) => $(id).addEventListener(name, does);

/** An outcome of orders as a text: its scenario; of atomic steps the text itself, and which of its orders. */
export const text_of = (/** @type {any} */ { text, turns }) => ({ kind: turns ? 'turns' : 'play', text, turns, bank: $('bank').value });
/** The text that is looked at: an outcome of orders, or what the editor has. */
export const text_now = () => now.viewed ? text_of(now.viewed)
  : { kind: now.kind, text: $('text').value, bank: $('bank').value };
