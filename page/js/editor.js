// The editor: two texts; what is reported of the first one is underlined at its place.
import { $, now, escaped } from './now.js';
import { put_text } from './kept.js';
import { offer, offered } from './complete.js';
import { Parts } from './parts.js';
import { place_of_word, HOLE_LINE } from './text.js';

const MOST_FAULTS = 40;
/** How many letters a row has, and how wide one is. */
let letters = 0, letter = 0;
/** What is reported, by line: a fault rather than a warning. @type {Map<number, any>} */
let marks = new Map();
/** A line with what is reported of it underlined from its place on. @param {string} line @param {any} it */
function marked(line, it) {
  let body = escaped(line) || ' ', kind = '';
  if (it) {
    kind = it.fault ? ' fault' : ' warned';
    const at = it.column ? Math.min(it.column, line.length) : line.length - line.trimStart().length;
    const size = line.slice(at).match(/^("[^"]*"|[\w.]+|\[\[?[^[\]]*\]\]?|{[^}]*}|\S)/)?.[0].length || 0;
    const parts = [line.slice(0, at), line.slice(at, at + size), line.slice(at + size)].map(escaped);
    body = `${parts[0]}<u class="${it.fault ? '' : 'w'}">${parts[1] || ' '}</u>${parts[2]}`;
  }
  if (!kind && line.trim() === HOLE_LINE) kind = ' hole';
  return `<span class="line${kind}">${body}</span>`;
}
/** What surely needs one row for each line is not laid out while it is far from the view. */
const is_even = (/** @type {string[]} */ lines) => lines.every(line => line.length <= letters && /^[ -~]*$/.test(line));
const painted = new Parts('editor', 'under',
  part => part.lines.map((line, i) => marked(line, marks.get(part.from + i))).join(''),
  part => {
    part.box.classList.toggle('far', is_even(part.lines));
    part.box.textContent = part.lines.map(line => line + '\n').join('');
  });
export function paint() {
  marks = new Map();
  for (const it of now.told)
    if (it.line !== undefined && !it.bank && !marks.get(it.line)?.fault) marks.set(it.line, it);
  painted.put($('text').value.split('\n'), part => part.lines.map((line, i) => {
    const it = marks.size ? marks.get(part.from + i) : null;
    return it ? `${line}\n${it.fault} ${it.column}` : line;
  }).join('\n'));
  paint_step();
}
/** The text's width changed; of what is hidden it stays. @param {number} width */
export function refit_text(width) {
  const pen = document.createElement('canvas').getContext('2d'), style = getComputedStyle($('under')), had = letters;
  if (!pen || !width) return;
  pen.font = `${style.fontSize} ${style.fontFamily}`;
  letter = pen.measureText('x'.repeat(100)).width / 100;
  letters = Math.floor(width / letter);
  if (letters !== had) for (const it of painted.all) if (!it.full) it.box.classList.toggle('far', is_even(it.lines));
}
/** For paper. */
export const paint_all = () => painted.fill_all();
export function paint_step() {
  const here = now.shown && !now.viewed ? now.steps[now.shown - 1] : null;
  for (const it of $('under').querySelectorAll('.step')) it.classList.remove('step');
  if (here) for (let i = here.from; i <= here.to; i++) painted.line_at(i)?.classList.add('step');
}
/** @param {number} n */
export function show_line(n) {
  const it = painted.line_at(n), box = $('editor'), top = box.scrollTop;
  const hidden = it && (it.offsetTop < top || it.offsetTop > top + box.clientHeight - 60);
  if (hidden) box.scrollTop = Math.max(0, it.offsetTop - 60);
}
/** The box that has what is reported. @param {any} it */
const box_of = it => it.bank ? 'bank' : 'text';
/** The word that is nearest in a message, and where the wrong one is, which may be typed on meanwhile. @param {any} it */
function fix_of(it) {
  const near = it.says.match(/"([^"]*)".*; did you mean "([^"]*)"\?/);
  if (!near || it.line === undefined) return null;
  const line = $(box_of(it)).value.split('\n')[it.line] || '';
  const at = place_of_word(line, near[1], Math.min(it.column, line.length));
  return at < 0 ? null : { from: at, to: at + near[1].length, word: near[2] };
}
export function show_faults() {
  const well = { play: 'no fault, no warning', orders: 'no fault', callers: 'no fault', tasks: 'no fault' }[now.kind] || '';
  const items = now.told.slice(0, MOST_FAULTS).map((it, i) => {
    const fix = fix_of(it), place = `${it.fault ? 'fault' : 'warning'} ${it.where}`.trim();
    const button = fix ? ` <button class="fix" data-fix="${i}">write ${escaped(fix.word)}</button>` : '';
    return `<li class="${it.fault ? 'f' : 'w'}"><button class="place" data-i="${i}">${escaped(place)}</button> `
      + `${escaped(it.says)}${button}</li>`;
  });
  const rest = now.told.length - MOST_FAULTS;
  if (rest > 0) items.push(`<li>and ${rest} more</li>`);
  $('faults').innerHTML = items.join('') || (well ? `<li class="ok">${well}</li>` : '');
}
/** @param {string} box @param {number} line */
const start_of = (box, line) => line && $(box).value.split('\n').slice(0, line).join('\n').length + 1;
/** Goes to the place of what is reported. @param {any} it */
export function go_to(it) {
  const box = box_of(it), at = start_of(box, it.line) + it.column;
  open_side(box);
  $(box).focus({ preventScroll: true });
  $(box).setSelectionRange(at, at);
  if (!it.bank) show_line(it.line);
}
/** @param {any} it */
export function put_fix(it) {
  const fix = fix_of(it), box = box_of(it), at = fix ? start_of(box, it.line) : 0;
  if (!fix) return;
  open_side(box);
  put_text($(box), fix.word, at + fix.from, at + fix.to);
  $(box).dispatchEvent(new Event('input'));
}
/** A new line is indented as the one above it. @param {any} event */
export function indent(event) {
  if (event.key !== 'Enter' || event.shiftKey || event.ctrlKey || event.altKey || event.metaKey) return;
  const box = event.target, at = box.selectionStart;
  const above = box.value.slice(0, at).split('\n').pop().match(/^[ \t]*/)[0];
  if (!above) return;
  event.preventDefault();
  put_text(box, '\n' + above, at, box.selectionEnd);
}
/** Opens the lesson, the text or the callbacks. @param {string} name */
export function open_side(name) {
  for (const it of ['story', 'text', 'bank']) {
    $(`side-${it}`).hidden = it !== name;
    $(`${it}-tab`).setAttribute('aria-selected', it === name);
    $(`${it}-tab`).tabIndex = it === name ? 0 : -1;
  }
  $('bank-tab').classList.toggle('used', !!$('bank').value.trim());
  document.body.dataset.side = name;
}
/** Where the text's caret is on the screen: the painted text below has the same lines. */
function caret_place() {
  const box = $('text'), before = box.value.slice(0, box.selectionStart).split('\n');
  const line = painted.line_at(before.length - 1), range = document.createRange();
  let left = before[before.length - 1].length;
  const walker = document.createTreeWalker(line, NodeFilter.SHOW_TEXT);
  for (let node = walker.nextNode(); node; node = walker.nextNode()) {
    const size = (node.textContent || '').length;
    if (left <= size) {
      range.setStart(node, Math.max(0, Math.min(left, size)));
      const place = range.getBoundingClientRect();
      return place.height ? place : line.getBoundingClientRect();
    }
    left -= size;
  }
  return line.getBoundingClientRect();
}
export function offer_in_text(asked = false) {
  const box = $('text');
  offer(box, offered(box.value, box.selectionStart, now.kind), caret_place, asked);
}
/** Where the caret of the callbacks is, as long as no line of them needs two rows. */
function bank_caret_place() {
  const box = $('bank'), at = box.getBoundingClientRect(), style = getComputedStyle(box);
  const high = parseFloat(style.lineHeight);
  const lines = box.value.slice(0, box.selectionStart).split('\n'), last = lines[lines.length - 1];
  const top = at.top + parseFloat(style.paddingTop) + high * (lines.length - 1) - box.scrollTop;
  return new DOMRect(at.left + parseFloat(style.paddingLeft) + letter * last.length, top, 1, high);
}
export function offer_in_bank(asked = false) {
  const box = $('bank');
  offer(box, offered(box.value, box.selectionStart, 'bank'), bank_caret_place, asked);
}
/** Goes to the next place of what is sought, or the one before. @param {boolean} back */
export function find(back) {
  const box = $($('side-text').hidden ? 'bank' : 'text');
  const text = box.value.toLowerCase(), word = $('find').value.toLowerCase();
  if (!word) return;
  const from = back ? box.selectionStart - 1 : box.selectionEnd, whole = text.split(word).length - 1;
  let at = back ? (from < 0 ? -1 : text.lastIndexOf(word, from)) : text.indexOf(word, from);
  if (at < 0) at = back ? text.lastIndexOf(word) : text.indexOf(word);
  $('found').textContent = at < 0 ? 'not found' : `${text.slice(0, at).split(word).length} of ${whole}`;
  if (at < 0) return;
  box.setSelectionRange(at, at + word.length);
  const line = text.slice(0, at).split('\n').length - 1;
  if (box.id === 'text') show_line(line);
  for (const it of $('under').querySelectorAll('.sought')) it.classList.remove('sought');
  painted.line_at(line)?.classList.add('sought');
}
