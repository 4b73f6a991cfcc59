// The trace and how the machine is after each step, walked step by step.
import { $, all, now, escaped, text_now, NARROW } from './now.js';
import { callers_at, drawn, machine_of, played } from './asks.js';
import { paint_step, show_line } from './editor.js';
import { fit_lanes, mark_picture, read_lanes, show_key, show_picture } from './picture.js';
import { Parts } from './parts.js';
import { why_of } from './reads.js';
import { changes_text, state_table } from './states.js';
import { actions_of, HOLE, passes_at, plays_at } from './text.js';

const MOST_THREADS = 12, MARKS = 2000;
/** The columns of the table of threads, and what each says. */
const COLUMNS = [['thread', ''], ['stage', 'oob: out-of-band'], ['policy', 'none: the core does not know the thread'],
  ['rank', 'f: fifo or rr, q: quota, w: weak; ↑: inherited, or a ceiling'], ['state', 'picked: it would run'],
  ['wait', 'what it waits for, or how its wait ended'], ['holds', 'its passes']];
/** The picture that is shown: of which text and trace, and which page of how many. */
const NO_PICTURE = { it: { kind: '', text: '', bank: '' }, out: '', title: '', page: 1, pages: 1 };
let shown_picture = NO_PICTURE;
/** The program's own callbacks, where the text has none of its own. */
let own_bank = '';
export const know_bank = (/** @type {string} */ text) => { own_bank = text; };
/** The lines of each step, by their places in the trace. @type {Map<number, number[]>} */
let places = new Map();
/** Of each line of the trace how many marks are before it in the picture. @type {number[]} */
let marks_before = [];
/** The rows of lanes beside the trace, where time goes down. */
let lanes = read_lanes('');
/** Whether the machine of the trace that is shown is still on its way. */
let is_made_later = false;
/** The row of lanes of a line, where the page of the picture has it. @param {number} i */
function lanes_at(i) {
  const row = lanes.rows[marks_before[i] - (shown_picture.page - 1) * MARKS] || { y: 0, parts: '' };
  return lanes.wide ? `<svg viewBox="0 ${row.y - 10} ${lanes.wide} 20" aria-hidden="true">${row.parts}</svg>` : '';
}
/** @param {any} it @param {number} i */
function line_of(it, i) {
  const answer = ' <span class="nb">-&gt; <b>$1</b></span><i>$2</i>';
  const text = escaped(it.line).replace(/ -&#62; (.*?)( \| .*)?$/, answer);
  if (it.kind === 'board') return `<div class="board">${escaped(it.line)}</div>`;
  const refused = it.kind === 'entry' && /^[A-Z]/.test(it.answer) ? ' refused' : '';
  return `<div id="line-${i}" role="option" aria-selected="false" class="${it.kind}${refused}" `
    + `data-step="${it.number}">${lanes_at(i)}${text}</div>`;
}
const trace = new Parts('lines', 'entries', part => part.lines.map((it, i) => line_of(it, part.from + i)).join(''),
  part => { part.box.classList.add('far'); part.box.textContent = ''; });
/** @param {any[]} entries */
function show_trace(entries) {
  now.entries = entries;
  now.count = entries.reduce((most, it) => Math.max(most, it.number), 0);
  places = new Map();
  marks_before = [];
  let before = 0;
  for (const [i, it] of entries.entries()) {
    marks_before.push(before);
    if (it.kind === 'board') continue;
    before++;
    if (places.has(it.number)) places.get(it.number)?.push(i);
    else places.set(it.number, [i]);
  }
  put_lines();
  $('no-trace').hidden = true;
  $('slider').max = now.count;
  $('slider').disabled = !now.count;
}
const put_lines = () => trace.put(now.entries, part =>
  part.lines.map((it, i) => `${it.number} ${it.line}${lanes_at(part.from + i)}`).join('\n'));
/** Puts lanes beside the trace, of a picture that goes down, or none. @param {string} picture */
function show_lanes(picture) {
  lanes = read_lanes(picture);
  document.body.classList.toggle('down', lanes.wide > 0);
  $('names').innerHTML = lanes.wide
    ? `<svg viewBox="0 -10 ${lanes.wide} 20" aria-hidden="true">${lanes.names}</svg>` : '';
  fit_lanes(lanes.wide, now.entries.reduce((most, it) => Math.max(most, it.line.length), 0));
  show_key(picture);
}
/** For paper. */
export const fill_trace = () => trace.fill_all();
/** What does not play leaves what the same text showed when it last played, pale. @param {string} why */
function show_stale(why) {
  $('stale').hidden = !now.entries.length || now.played !== now.lesson?.key;
  if ($('stale').hidden) show_none(why);
  else $('stale').textContent = why + ' Below is what was played last.';
}
/** No trace, and why. @param {string} why */
export function show_none(why) {
  $('stale').hidden = true;
  show_trace([]);
  $('no-trace').hidden = false;
  $('no-trace').textContent = why;
  now.machine = now.callers = null;
  shown_picture = { ...NO_PICTURE };
  put_picture('');
  show_state(0);
}
/** How a machine is after a step, as a table; of callers it is asked once. @param {any} machine @param {number} step */
async function known_at(machine, step) {
  const head = machine.entries[0]?.line || '';
  if (machine.kind !== 'callers') return state_table(machine.states[Math.min(step, machine.states.length - 1)], head);
  const known = machine.known.get(step) || callers_at(machine, step);
  machine.known.set(step, known);
  const state = await known;
  return state && state_table(state, head);
}
/** Of many threads only those that are attached or wait. @param {any} at */
function table_of(at) {
  const is_told = (/** @type {any} */ it) => at.threads.length <= MOST_THREADS || it.policy !== '–' || it.wait;
  const threads = at.threads.filter(is_told).map((/** @type {any} */ it) => Object.values(it));
  return { threads, rows: [...at.rows] };
}
/** Of callers' texts: the locks as they were last shown, the threads with the passes they hold, and the kernel. */
function callers_table(at, step) {
  const locks = locks_at(step);
  if (!at) return locks;
  const holders = [...passes_at(now.entries, step)];
  const { threads, rows } = table_of(at);
  const held = (/** @type {string} */ who) => holders.filter(it => it[1] === who).map(it => it[0]).join(', ');
  const of_kernel = rows.map(([of, says]) => [of.replace(/^(mutex \d+)$/, '$1 in the kernel'), says]);
  return { threads: threads.map(row => [...row, held(row[0])]), rows: [...locks.rows, ...of_kernel] };
}
/** Of callers' texts: how each lock was when it was last shown. @param {number} step */
function locks_at(step) {
  const rows = new Map();
  for (const it of now.entries) {
    if (it.kind !== 'entry' || it.number > step || !it.lock) continue;
    for (const part of it.lock.split('; ')) {
      const [, of, says] = part.match(/^([^:]*): (.*)$/) || [0, part, ''];
      rows.set(of, says);
    }
  }
  return { threads: [], rows: [...rows] };
}
/** A cell; one that the step changed is marked, and has what it was. */
function cell(text, was, head) {
  const name = head ? 'th scope="row"' : 'td', is = /^(picked|ready|blocked)$/.test(text) ? text : '';
  if (was === undefined || was === text) return `<${name} class="${is}">${escaped(text)}</${head ? 'th' : 'td'}>`;
  return `<${name} class="changed ${is}" title="before: ${escaped(was || 'nothing')}">${escaped(text)}`
    + `<span class="heard"> (changed)</span></${head ? 'th' : 'td'}>`;
}
/** @param {any} at @param {any} before @param {number} step */
function show_table(at, before, step) {
  const were = new Map(before.threads.map(it => [it[0], it])), had = new Map(before.rows);
  const when = step ? `After step ${step}; what it changed is marked` : 'At the start';
  const heads = COLUMNS.slice(0, at.threads[0]?.length).map(([it, says]) => `<th scope="col" title="${says}">${it}</th>`);
  const row_of = it => `<tr>${it.map((text, i) => cell(text, were.get(it[0])?.[i], !i)).join('')}</tr>`;
  const threads = at.threads.map(row_of);
  const rows = at.rows.map(([of, says]) => {
    const was = had.has(of) ? had.get(of) : before.rows.length || step ? '' : undefined;
    return `<tr><th scope="row">${escaped(of)}</th>${cell(says, was, false)}</tr>`;
  });
  const parts = [threads.length && `<table><caption>${when}</caption><thead><tr>${heads.join('')}</tr></thead>`
    + `<tbody>${threads.join('')}</tbody></table>`,
    rows.length && `<table><caption class="${threads.length ? 'heard' : ''}">${when}</caption>`
    + `<tbody>${rows.join('')}</tbody></table>`];
  const actions = actions_of($('bank').value.trim() || own_bank);
  const plays = step ? plays_at(now.entries, step) : [];
  const says = plays.filter(it => actions[it.callback]).map(it => `<li>${it.of}: callback ${it.callback}, `
    + `<code>${escaped(actions[it.callback])}</code></li>`);
  $('state-says').textContent = changes_text(at, before, COLUMNS.map(it => it[0]), step);
  $('state').innerHTML = parts.filter(Boolean).join('') + (says.length ? `<ul id="plays">${says.join('')}</ul>` : '');
}
/** @param {any} it */
function show_in(box, it) {
  const here = it.getBoundingClientRect(), around = box.getBoundingClientRect();
  if (here.top < around.top + 30) box.scrollTop += here.top - around.top - 40;
  else if (here.bottom > around.bottom - 40) box.scrollTop += here.bottom - around.bottom + 60;
}
/** Goes to a step: its lines, its column, its place in the text, and the machine after it. @param {number} step */
export async function show_state(step) {
  now.shown = step;
  $('slider').value = step;
  $('at').textContent = `step ${step} of ${now.count}`;
  for (const it of all('#lines [aria-selected=true]')) it.setAttribute('aria-selected', 'false');
  const lines = lines_of(step).map(i => trace.line_at(i));
  for (const it of lines) it.setAttribute('aria-selected', 'true');
  for (const it of all('#story .at')) it.classList.toggle('now', it.dataset.step === String(step));
  if (lines[0]) $('lines').setAttribute('aria-activedescendant', lines[0].id);
  if (lines[0]) show_in($('lines'), lines[0]);
  else $('lines').scrollTop = 0;
  paint_step();
  mark_picture();
  const pages = lines_of(step).map(page_of);
  if (pages.length && !pages.includes(shown_picture.page)) turn_page(pages[0]);
  if (now.steps[step - 1] && !now.viewed) show_line(now.steps[step - 1].from);
  const machine = now.machine || now.callers, table = now.callers ? callers_table : table_of;
  if (!machine && is_made_later) return;
  if (!machine) return show_table(locks_at(step), locks_at(Math.max(0, step - 1)), step);
  const known = await known_at(machine, step), at = table(known, step);
  const before = step ? table(await known_at(machine, step - 1), step - 1) : at;
  if (machine !== (now.machine || now.callers) || now.shown !== step) return;
  show_table(at, before, step);
  document.body.dataset.state = String(step);
}
/** @param {string} by  a number of steps, or first or last */
export function walk(by) {
  const to = by === 'first' ? 0 : by === 'last' ? now.count : Math.max(0, Math.min(now.count, now.shown + Number(by)));
  return show_state(to);
}
/** The lines of a step, by their places. @param {number} step */
const lines_of = step => step && places.get(step) || [];
/** The page of the picture that has a line. @param {number} i */
const page_of = i => Math.floor(marks_before[i] / MARKS) + 1;
/** @param {number} to */
async function turn_page(to, again = false) {
  const mine = now.turn, page = Math.max(1, Math.min(shown_picture.pages, to));
  if (page === shown_picture.page && !again) return;
  shown_picture.page = page;
  const svg = await drawn(shown_picture.it, Promise.resolve(shown_picture), way_now(), page);
  if (mine !== now.turn || shown_picture.page !== page) return;
  put_picture(svg.out);
  const first = marks_before.lastIndexOf((page - 1) * MARKS);
  // The lines have other heights now: the step that is looked at stays in view.
  const mark = lines_of(now.shown).find(i => page_of(i) === page) ?? first;
  show_in($('lines'), trace.line_at(mark));
}
/** The picture goes another way. */
export const draw_again = () => shown_picture.out && turn_page(shown_picture.page, true);
/** Which way time goes: as is asked, or by the length of the trace; where there is little room it goes across. */
const way_now = () => $('way').value || (innerWidth <= NARROW ? 'across' : '');
/** Shows a page of the picture, beside the trace or by itself. @param {string} picture */
function put_picture(picture) {
  const { title, page, pages } = shown_picture;
  show_lanes(picture);
  put_lines();
  show_picture(lanes.wide ? '' : picture, title);
  $('pages').hidden = pages < 2;
  $('page').textContent = `page ${page} of ${pages}`;
  mark_picture();
}
/** @param {string} by */
export const turn_by = by => turn_page(shown_picture.page + Number(by));
/** Shows a trace with its picture; the machine behind its steps may come later. */
function show_played(it, answer, svg, title) {
  const callers = it.kind === 'callers' ? { ...it, entries: answer.entries, known: new Map() } : null;
  Object.assign(now, { machine: null, callers, played: now.lesson?.key });
  $('stale').hidden = true;
  const pages = Number(svg.err.match(/page 1 of (\d+)/)?.[1] || 1);
  shown_picture = { it, out: answer.out, title, page: 1, pages };
  lanes = read_lanes('');
  if (now.entries !== answer.entries) show_trace(answer.entries);
  put_picture(svg.out);
  is_made_later = !callers;
}
/**
 * Plays and draws a scenario, the text's own or that of an outcome, and goes to a step, or stays at the one that is looked
 * at by then. @param {number} mine @param {number} [step]
 */
export async function play_text(mine, step) {
  // All is asked at once: one worker plays and makes the machine, another draws; the trace is shown when it is there.
  const it = text_now(), trace = played(it), picture = drawn(it, trace, way_now());
  const made = it.kind === 'play' ? machine_of(it) : null, answer = await trace;
  // Lanes and their lines come together.
  if (mine === now.turn && answer.out && !lanes.wide) show_trace(answer.entries);
  const svg = await picture;
  if (mine !== now.turn) return answer;
  const title = now.viewed ? now.viewed.title : now.lesson?.title || 'the text';
  if (answer.out) show_played(it, answer, svg, title);
  else {
    const why = why_of(answer.err).replace(/; did you mean .*/, '') || 'there is nothing to play';
    show_stale(it.text.includes(HOLE) ? `The text has a hole (${HOLE}). The text is played when it is filled.`
      : answer.status === -2 ? `It was not played: ${why}.`
      : `It cannot be played: ${why}. The faults are listed below the text.`);
  }
  const undrawn = answer.out && !svg.out;
  $('note').textContent = undrawn ? `not drawn: ${why_of(svg.err)}` : '';
  $('viewed').hidden = !now.viewed;
  $('viewed-take').hidden = it.kind === 'turns';
  $('viewed-title').textContent = now.viewed ? title : '';
  const memory = (Math.max(answer.memory, svg.memory) / 1048576).toFixed(1);
  $('times').textContent = `play ${answer.ms.toFixed(1)} ms, draw ${svg.ms.toFixed(1)} ms, memory ${memory} MiB`;
  const machine = await made;
  if (mine !== now.turn || !answer.out) return answer;
  is_made_later = false;
  now.machine = machine && Object.assign(machine, { entries: answer.entries, known: new Map() });
  await show_state(Math.min(step ?? now.shown, now.count));
  return answer;
}
