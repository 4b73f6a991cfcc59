// The console: a driven machine answers each line; the lines before it are answered again, unseen. It takes calls back
// by the program's own `undo`.
import { $, now, escaped } from './now.js';
import { converted, said } from './asks.js';
import { offer, offered_line } from './complete.js';
import { is_lines } from './text.js';

/** @type {{ line: string, answer: string }[]} */
let lines = [];
/** @type {string[]} Earlier lines, for the arrow keys. */
const past = [];
let at = 0;
export function begin_console() {
  lines = [];
  show_said();
}
/** How many calls are left of those that were typed: each answer that has an entry, less what was taken back. */
export const calls_left = (/** @type {string[]} */ answers) => answers.reduce((left, answer) =>
  /^\d+ T\d+ /.test(answer) ? left + 1 : /^undone: /.test(answer) ? Math.max(0, left - 1) : left, 0);
/** @param {string} [trouble] */
function show_said(trouble = '') {
  const refused = /^(!.*|.* -&#62; [A-Z].*)$/gm, of = now.viewed ? 'the outcome' : 'the text';
  const told = lines.map(it => `<span class="me">&gt; ${escaped(it.line)}</span>\n`
    + escaped(it.answer).replace(refused, '<span class="refused">$1</span>'));
  if (trouble) told.push(`<span class="refused">${escaped(trouble)}</span>\n`);
  $('said').innerHTML = `<span class="dim">The machine after the last step of ${of}.</span>\n${told.join('')}`;
  if (!$('console').hidden) $('said').scrollTop = 1e9;
  $('undo').disabled = !calls_left(lines.map(it => it.answer));
}
/** @param {string} line */
export async function say(line) {
  at = past.push(line);
  if (!now.machine) return show_said(document.body.dataset.waits ? 'The text is still being played.'
    : 'There is no machine to drive: the text is not a scenario that can be played.');
  const mine = now.turn, answers = await said(now.machine, [...lines.map(it => it.line), line]);
  if (mine !== now.turn) return;
  lines.push({ line, answer: answers.pop() || '' });
  show_said();
}
/** @param {any} event */
export function console_key(event) {
  const by = { ArrowUp: -1, ArrowDown: 1 }[event.key];
  if (!by || !past.length) return;
  event.preventDefault();
  at = Math.max(0, Math.min(past.length, at + by));
  event.target.value = past[at] || '';
}
export function offer_in_line(asked = false) {
  const box = $('line');
  offer(box, offered_line(box.value, box.selectionStart, now.viewed ? now.viewed.text : $('text').value), () => box.getBoundingClientRect(), asked);
}
/** What comes behind a scenario in one that goes on from it, or null where it doesn't. @param {string} whole */
export const rest_of = (whole, /** @type {string} */ front) =>
  whole.startsWith(front.trimEnd()) ? whole.slice(front.trimEnd().length).trim() : null;
/**
 * The text with the calls that were typed behind its steps, where these are tables or lines; else, and where steps of
 * the text were taken back, all as tables.
 */
export async function scenario_of_console() {
  if (!now.machine) return '';
  const scenario_after = async (/** @type {string[]} */ typed) => (await said(now.machine, [...typed, 'scenario'])).pop() || '';
  const scenario = await scenario_after(lines.map(it => it.line)), front = await scenario_after([]);
  const text = $('text').value, rest = rest_of(scenario, front), in_lines = is_lines(text);
  if (now.viewed || rest === null || !in_lines && !/^\s*\[\[\s*step\s*\]\]/m.test(text)) return scenario;
  if (!in_lines) return `${text.trimEnd()}\n\n${rest}\n`;
  const [as_lines, had] = await Promise.all([converted(scenario), converted(front)]);
  return `${text.trimEnd()}\n${rest_of(as_lines.text, had.text) || ''}\n`;
}
