// The form in which a teacher makes an exercise, tries it, and hands it out as a link, a code or a file.
import { $, now } from './now.js';
import { bare_lines, judged } from './exercise.js';
import { copied, link_of, save_file } from './kept.js';
import { ask_of, kind_of, HOLE, HOLE_LINE } from './text.js';

const BY = ['trace', 'lines', 'ask'];
/** What an exercise has besides what the form asks for: it stays while its text does. */
const MORE = ['keeps', 'stays', 'calls', 'then', 'half', 'ends', 'bank_solution'];
/** The form, filled with what is there. */
export function make_exercise() {
  const it = now.lesson?.exercise, text = $('text').value;
  const put = (/** @type {string} */ id, /** @type {string} */ value) => { $('make-' + id).value = value; };
  put('title', it ? it.title : `Exercise: ${(now.lesson?.title || 'my text').replace(/^\d+\. /, '')}`);
  put('question', it ? it.question : '');
  put('text', it ? it.text : text);
  put('solution', it ? it.solution : text);
  put('lines', (it?.lines || []).join('\n'));
  put('ask', it?.ask || ask_of(text));
  put('link', '');
  const checks = it ? [it.check].flat() : [kind_of(text) === 'orders' ? 'ask' : 'trace'];
  for (const by of BY) $('make-by-' + by).checked = checks.includes(by);
  $('make-said').textContent = '';
  show_wanted();
  $('make').showModal();
}
/** What is wanted is asked for only where a check takes it. */
export function show_wanted() {
  for (const by of ['lines', 'ask']) $(`make-${by}-label`).hidden = !$('make-by-' + by).checked;
}
/** Makes a hole of what is selected. */
export function make_hole() {
  const box = $('make-text'), from = box.selectionStart, to = box.selectionEnd;
  const part = box.value.slice(from, to);
  $('make-said').className = '';
  $('make-said').textContent = from === to ? 'First select the part of the text that becomes a hole.' : '';
  if (from === to) return;
  box.setRangeText(part.includes('\n') ? HOLE_LINE + '\n' : HOLE, from, to, 'select');
  box.blur();
  box.focus();
}
/** What the form says. */
export function exercise_asked() {
  const value = (/** @type {string} */ id) => $('make-' + id).value, bank = $('bank').value, was = now.lesson?.exercise;
  const [title, question, text, solution] = ['title', 'question', 'text', 'solution'].map(value);
  const checks = BY.filter(by => $('make-by-' + by).checked), more = was?.text === text ? MORE.filter(key => key in was) : [];
  return { title, question, text, solution, check: checks.length === 1 ? checks[0] : checks, ...(bank.trim() ? { bank } : {}),
    ...(checks.includes('ask') ? { ask: value('ask').trim() } : {}),
    ...(checks.includes('lines') ? { lines: bare_lines(value('lines')) } : {}), ...Object.fromEntries(more.map(key => [key, was[key]])) };
}
/** Tries the exercise with its own solution; reports that after what was done. @param {any} it @param {string} done */
async function report_made(it, done) {
  const open = it.text === it.solution, kept_back = !it.check.includes('trace') && !it.solution.trim();
  const [how, says] = kept_back ? ['good', ''] : await judged(it, it.solution, it.bank_solution || it.bank || '');
  const doubt = !it.check.length ? 'but nothing checks it' : how !== 'good' ? `but its own solution is not accepted: ${says}`
    : open ? 'but its text has no hole yet' : kept_back ? 'and has no solution that could be tried.' : '';
  $('make-said').className = doubt ? 'unknown' : 'good';
  $('make-said').textContent = `${done}, ${doubt || 'and its solution is accepted.'}`;
}
export async function exercise_made() {
  const it = exercise_asked();
  $('make-link').value = await link_of('exercise', it);
  $('make-link').select();
  const done = await copied($('make-link').value) ? ' and copied' : '', size = $('make-link').value.length;
  await report_made(it, `The link is made${done} (${size} characters)`);
}
/** An exercise as a file, which "Open file" takes: for pages that have no common address. */
export async function save_exercise() {
  const it = exercise_asked(), name = it.title.toLowerCase().replace(/[^a-z0-9]+/g, '_').replace(/^_+|_+$/g, '');
  save_file(`${name || 'exercise'}.json`, JSON.stringify(it, null, 1) + '\n');
  await report_made(it, 'The exercise is saved as a file');
}
