// Exercises: a text with a hole, a question, checks, a solution after a button; and whether an answer is right.
import { $, now, escaped } from './now.js';
import { gone_through, parts_read, played, usual_values } from './asks.js';
import { hash_of } from './kept.js';
import { show_line } from './editor.js';
import { verdict_of } from './orders.js';
import { why_of } from './reads.js';
import { parts_of, rules_trouble, whole_trouble } from './stays.js';
import { bare_of, is_lines, keys_of, kind_of, with_ask, HOLE, HOLE_LINE } from './text.js';

/** @param {string} out */
export const bare_lines = out => out.split('\n').map(line => line.replace(/^\s*(\d+|-) (?=T)/, '').trim()).filter(Boolean);
/** Whether a line of a trace is one that is wanted: of a call it has the keys that are named there. @param {string} line */
function is_wanted(line, /** @type {string} */ wanted) {
  const [got, form] = [line, wanted].map(it => it.match(/^(T\d+ \w+)(.*?) -> (.*)$/));
  if (!got || !form) return line === wanted;
  const keys = new Map(keys_of(got[2].trim()).map(([key, value]) => [key, value]));
  return got[1] === form[1] && got[3] === form[3] && keys_of(form[2].trim()).every(([key, value]) => keys.get(key) === value);
}
/** Whether wanted lines are in a trace, in order. @param {string[]} got @param {string[]} wanted */
export function lines_there(got, wanted) {
  let at = 0;
  for (const [i, line] of wanted.entries()) {
    while (at < got.length && !is_wanted(got[at], line)) at++;
    if (at++ >= got.length)
      return ['bad', `Not yet: the trace has ${i} of the ${wanted.length} lines, in order.`];
  }
  return ['good', `Right: the trace has all ${wanted.length} lines, in order.`];
}
/** Whether a trace is that of the solution. @param {string[]} got @param {string[]} wanted */
export function same_trace(got, wanted) {
  const at = got.findIndex((line, i) => line !== wanted[i]);
  if (at < 0 && got.length === wanted.length) return ['good', 'Right: the trace is that of the solution.'];
  if (at < 0) return ['bad', `Right so far; ${wanted.length - got.length} more lines are missing in the trace.`];
  if (at >= wanted.length) return ['bad', `The first ${wanted.length - 1} lines are right; the trace has more.`];
  return ['bad', `Not yet: line ${at} of the trace differs from the solution's: ${got[at]}`];
}
/** @param {any} it @param {string} text @param {string} bank */
async function by_ask(it, text, bank) {
  if (is_lines(text)) return ['bad', 'A text of lines has no table [ask]: write it as tables, then check it.'];
  const found = await gone_through({ kind: 'orders', text: with_ask(text, it.ask || ''), bank }, it.ask), verdict = verdict_of(found);
  for (const o of found.status === 0 && found.whole ? found.outcomes : []) {
    const missing = (it.ends || []).find((/** @type {string} */ line) => !o.told.includes(line));
    if (missing) return ['bad', `Not yet: at the end of outcome ${o.number} this is not so: ${missing}`];
  }
  return verdict;
}
/** @param {any} it @param {string} text @param {string} bank */
async function by_trace(it, text, bank) {
  const mine = await played({ kind: kind_of(text), text, bank });
  if (mine.status) return ['bad', 'It cannot be played: ' + why_of(mine.err)];
  const own = it.bank_solution || it.bank || '';
  const right = await played({ kind: kind_of(it.solution), text: it.solution, bank: own });
  return same_trace(bare_lines(mine.out), bare_lines(right.out));
}
/** @param {any} it @param {string} text @param {string} bank */
async function by_lines(it, text, bank) {
  const mine = await played({ kind: kind_of(text), text, bank });
  if (mine.status) return ['bad', 'It cannot be played: ' + why_of(mine.err)];
  return lines_there(bare_lines(mine.out), bare_lines(it.lines.join('\n')));
}
/** @type {Record<string, (it: any, text: string, bank: string) => Promise<string[]>>} */
const CHECKS = { trace: by_trace, lines: by_lines, ask: by_ask };
/** The checks of an exercise: each has to hold. @param {any} it @returns {string[]} */
const checks_of = it => [it.check].flat().filter(check => check in CHECKS);

/** The exercise as it was given, with its holes, and its steps as the program reads them where it can. @param {string} text */
async function parts_given(text) {
  const own = parts_of(text), read = text.includes(HOLE) ? null : await parts_read(text);
  if (!read || read.why || read.steps.length !== own.steps.filter(it => !it.gap).length) return own;
  return { board: read.board, steps: own.steps.map(it => it.gap ? it : read.steps.shift() || it) };
}
/** Callbacks without comments and layout. @param {string} bank */
const plain_bank = bank => bank.split('\n').map(line => bare_of(line).replace(/\s+/g, '')).filter(Boolean).join('\n');
/**
 * What an answer did not keep, and what makes it right by half only. All but the holes has to stay, where the exercise
 * has no rules of its own: `stays`, `calls` and `then`, which `half` may have too.
 * @param {any} it @param {string} text @param {string} bank
 */
async function broken_by(it, text, bank) {
  const rules = it.stays || it.calls || it.then, is_open = it.keeps === false && !rules;
  if (is_open) return { whole: '', half: '' };
  const [given, read, usual] = await Promise.all([parts_given(it.text), parts_read(text, bank), usual_values()]);
  if (read.why) return { whole: `It cannot be played: ${read.why}`, half: '' };
  const has_own_bank = it.bank_solution || (it.bank || '').includes(HOLE) || plain_bank(bank) === plain_bank(it.bank || '');
  const whole = !has_own_bank ? 'The callbacks of the exercise have to stay.'
    : rules ? rules_trouble(it, given, read, usual) : whole_trouble(given, read, usual);
  return { whole, half: it.half ? rules_trouble(it.half, given, read, usual) : '' };
}
/**
 * Whether an answer is what its exercise asks for: how it is (good, bad, or unknown, which is right by half too), and why.
 * @param {any} it @param {string} text @param {string} bank
 */
export async function judged(it, text, bank) {
  if (text.includes(HOLE)) return ['bad', `There is a hole (${HOLE}) left.`];
  const { whole, half } = await broken_by(it, text, bank), told = [];
  if (whole) return ['bad', whole];
  for (const check of checks_of(it)) {
    const [how, says] = await CHECKS[check](it, text, bank);
    if (how !== 'good') return [how, says];
    told.push(says);
  }
  if (half) return ['unknown', `Right by half: ${it.half.says ? `${it.half.says} (${half})` : half}`];
  return ['good', told.length === 1 ? told[0] : `Right: all ${told.length} checks hold.`];
}
export async function check_exercise() {
  const box = $('checked');
  box.className = 'busy';
  box.textContent = 'checking ..';
  [box.className, box.textContent] = await judged(now.lesson.exercise, $('text').value, $('bank').value);
}
/**
 * An exercise as a lesson. An answer belongs to the text that was given: the key has a hash of it (`was` is the key that
 * answers were kept by before). @param {any} it
 */
export function exercise_lesson(it) {
  const title = it.title || 'An exercise', parts = String(it.question || '').split('\n\n');
  const story = `<h2>${escaped(title)}</h2>` + parts.map(part => `<p>${escaped(part)}</p>`).join('');
  const { text, bank = '' } = it, was = 'exercise ' + title;
  return { key: `${was} ${hash_of(JSON.stringify([text, bank]))}`, was, title, group: 'Exercises', story, text, bank, exercise: it };
}
export function show_task() {
  const it = now.lesson?.exercise;
  $('task').hidden = !it;
  if (!it) return;
  $('question').textContent = it.question;
  $('checked').textContent = $('checked').className = '';
  const text = $('text').value, hole = text.match(new RegExp(`${HOLE}|^[ \\t]*${HOLE_LINE}$`, 'm'));
  if (hole) {
    // The hole is selected: what is typed comes in its place.
    $('text').setSelectionRange(hole.index, hole.index + hole[0].length);
    show_line(text.slice(0, hole.index).split('\n').length - 1);
  }
  $('solution').open = false;
  $('solution').hidden = !it.solution;
  $('solution-text').textContent = it.solution || '';
}
