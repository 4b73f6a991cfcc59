// The picture that `lab draw` made, for a screen. Of one that goes across: numbers below the columns in place of the
// turned text (the trace is beside it), the step that is looked at marked, and zoom; each of its bands of lanes becomes
// a drawing of its own, which is made only once it is seen. Of one that goes down: a row of lanes for each line of the
// trace, beside which the trace stands. Its key is beside both.
import { $, all, now, escaped } from './now.js';

const PITCH = 30, LEFT = 104, ABOVE = 50, BELOW = 34, EACH = 5, LEAST = .85;
/** @typedef {{ first: number, low: number, top: number, parts: (() => string)[], box?: any }} Band */
/** @type {Map<number, { x: number, band: Band }[]>} The columns of each step. */
let columns = new Map();
/** @type {Band[]} */
let bands = [];
let size = [1, 1], room = [1, 1], zoom = 1;

/** Where a line of the picture's text draws. @param {string} line */
function place_of(line) {
  const it = line.match(/translate\((-?[\d.]+),(-?[\d.]+)\)|d="M(-?[\d.]+) (-?[\d.]+)/);
  return it ? [Number(it[1] ?? it[3]), Number(it[2] ?? it[4])] : [0, 0];
}
/** The lanes by their height, the bands of lanes, and how wide they are. @param {string[]} lines */
function lanes_of(lines) {
  const lanes = new Map(), found = [];
  let end = LEFT;
  for (const line of lines) {
    const it = line.match(/^<path d="M104 (\d+)H(\d+)"[^>]*\/><text [^>]*>([^<]*)/);
    if (!it) continue;
    lanes.set(+it[1], it[3]);
    end = Math.max(end, +it[2]);
  }
  for (const y of [...lanes.keys()].sort((a, b) => a - b)) {
    const band = found[found.length - 1];
    if (band && y - band.low <= PITCH) band.low = y;
    else found.push({ first: y, low: y, top: y - ABOVE, parts: [] });
  }
  return { lanes, found, end };
}
/** A line of the picture with bold ranks, and what is lent clear above its own. @param {string} line */
const ranked = line => line.replace(/font-size="7">(?=[frqw])/g, 'font-size="7" font-weight="bold">').replace(/ y="-12.5"/g, ' y="-14"');
/** A mark with its number below it, and the number of a played line above. @param {string} line @param {Band} band */
function mark_of(line, says, number, band, y) {
  const played = says.match(/^\s+line (\d+) /), entry = /^\d/.test(says);
  const below = !entry ? '·' : number < 100 || number % EACH === 0 ? number : '';
  const more = `<text y="${band.low - y + 24}" text-anchor="middle">${below}</text>`
    + (played ? `<text y="-11" text-anchor="middle" font-weight="bold">${played[1]}</text>` : '');
  return line.replace(/<text [^>]*rotate\(90\)[^>]*>[^<]*<\/text>/, more)
    .replace('<g ', `<g class="mark" data-step="${number}" `);
}
/** Puts each line of the picture's text into its band. @param {string} text */
function read_picture(text) {
  const lines = text.split('\n').slice(2), { lanes, found, end } = lanes_of(lines);
  let number = 0, at = 0;
  columns = new Map();
  bands = found;
  for (const line of bands.length ? lines : []) {
    const [x, y] = place_of(line);
    if (y <= 28) continue;
    while (at + 1 < bands.length && y >= bands[at + 1].top) at++;
    while (at > 0 && y < bands[at].top) at--;
    const says = line.match(/<title>([^<]*)/)?.[1], band = bands[at], is_thread = lanes.get(y)?.startsWith('T');
    if (says === undefined) { band.parts.push(() => is_thread ? ranked(line) : line); continue; }
    // (a call that found the history full has no entry, and nor have its plays)
    const entry = line.match(/^<g data-entry="(\d+)"/);
    number = entry ? +entry[1] : says.startsWith('- ') ? number + 1 : number;
    const mine = number, column = columns.get(number);
    if (column) column.push({ x, band });
    else columns.set(number, [{ x, band }]);
    band.parts.push(() => mark_of(is_thread ? ranked(line) : line, says, mine, band, y));
  }
  size = [end + 22, bands.reduce((sum, band) => sum + band.low - band.top + BELOW, 0)];
}
/** The key has the signs that are somewhere in the picture. @param {string} text */
export function show_key(text) {
  const sign = /^<g transform="translate\(\d+,(\d+)\)">(.*)<text x="(\d+)" [^>]*>(.*)<\/text><\/g>$/gm;
  const used = [...text.matchAll(sign)].filter(it => +it[1] < 50 && text.split(it[2]).length > 2);
  // A strip is left of the middle of its lane, where time goes down, or below it.
  $('key').innerHTML = used.map(([, y, shape, x, says]) =>
    `<span><svg viewBox="${x === '0' ? -21 : -11} ${y === '28' ? 0 : -10} 22 20" width="24" height="20" `
    + `aria-hidden="true">${shape}</svg>${says}</span>`).join('');
}
/** @typedef {{ names: string, wide: number, rows: { y: number, parts: string }[] }} Lanes */
/** Of a picture that goes down: its lanes' names, and a row for each mark. @param {string} text @returns {Lanes} */
export function read_lanes(text) {
  const rows = [], names = new Map();
  let paths = '', parts = '', wide = 0;
  for (const line of text.split('\n')) {
    const lane = line.match(/^<path d="M(\d+) \d+V\d+"( [^>]*>)<text x="(\d+)" [^>]*>([^<]*)/);
    const mark = line.match(/^(<g [^>]*\((\d+),(\d+)\)"><title>.*)<text x="(\d+)" [^<]*<\/text><\/g>$/);
    if (lane && !rows.length) {
      const [, x, stroke, at, name] = lane;
      paths += `<path d="M${x} -10v20"${stroke}`;
      names.set(x, `<text x="${at}" y="4">${name}</text>`);
    } else if (mark) {
      const y = +mark[3], lanes = `<g transform="translate(0,${y})">${paths}</g>`;
      rows.push({ y, parts: `${lanes}${parts}${mark[1]}</g>` });
      wide = +mark[2] + +mark[4] - (/<title> /.test(line) ? 24 : 8);
      parts = '';
    } else if (paths && !lane) parts += line;
  }
  return { names: [...names.values()].join(''), wide, rows };
}
/** Draws a band, once. @param {Band} band */
function draw_band(band) {
  if (!band.box || band.box.firstChild) return;
  const height = band.low - band.top + BELOW;
  band.box.innerHTML = `<svg viewBox="0 ${band.top} ${size[0]} ${height}" aria-hidden="true" font-size="9" `
    + `font-family="DejaVu Sans Mono, monospace">${band.parts.map(part => part()).join('')}</svg>`;
  if (columns.get(now.shown)?.some(it => it.band === band)) mark_band(band);
}
const seen = typeof IntersectionObserver === 'undefined' ? null : new IntersectionObserver(found => {
  for (const it of found) if (it.isIntersecting) draw_band(bands[Number(/** @type {any} */ (it.target).dataset.n)]);
}, { rootMargin: '300px' });
export const draw_all = () => bands.forEach(draw_band);
/** @param {string} text @param {string} name */
export function show_picture(text, name) {
  const box = $('drawing');
  read_picture(text);
  seen?.disconnect();
  const says = `Picture of ${escaped(name)}; the trace says the same in words`;
  box.innerHTML = bands.length ? `<div role="img" aria-label="${says}">` + bands.map((band, i) =>
    `<div class="band" data-n="${i}" style="--high:${band.low - band.top + BELOW}px"></div>`).join('') + '</div>' : '';
  all('#drawing .band').forEach((it, i) => {
    bands[i].box = it;
    seen?.observe(it);
  });
  if (bands[0]) draw_band(bands[0]);
  fit();
}
/** The picture's room changed. */
export function refit() {
  fit_lanes();
  room = [$('drawing').clientWidth - 4, $('drawing').clientHeight - 4];
  fit();
}
export function fit() {
  if (beside) return;
  const box = $('drawing'), most = document.body.classList.contains('wide') || innerWidth >= 1800 ? 3.2 : 2.2;
  const least = Math.min(room[0] / size[0], room[1] / size[1], most);
  const scale = Math.max(LEAST, least) * zoom;
  box.style.setProperty('--wide', size[0] + 'px');
  box.style.setProperty('--scale', String(scale));
  $('zoom').textContent = Math.round(scale * 100) + ' %';
}
/** Makes the picture larger or smaller; by 0 it fits again. @param {number} by */
export function zoom_by(by) {
  zoom = by ? zoom * by : 1;
  fit();
  fit_lanes();
}
/** How wide lanes and the longest line beside them are; 0 where there are none. */
let beside = 0;
/** The trace with lanes beside it fits into its room, as far as it can be read. */
export function fit_lanes(wide = -1, letters = 0) {
  if (wide >= 0) beside = wide && wide + 8 * letters + 30;
  if (!beside) return;
  const large = document.body.classList.contains('wide') || innerWidth >= 1800;
  const scale = Math.max(large ? 1 : LEAST, Math.min($('lines').clientWidth / beside, large ? 2 : 1.1)) * zoom;
  $('lines').style.setProperty('--scale', String(scale));
  $('lines').style.setProperty('--lanes', String(wide >= 0 ? wide : $('lines').style.getPropertyValue('--lanes')));
  $('zoom').textContent = Math.round(scale * 100) + ' %';
}
/** @param {Band} band */
function mark_band(band) {
  const svg = band.box.firstChild;
  for (const it of columns.get(now.shown) || []) {
    if (it.band !== band) continue;
    const mark = document.createElementNS('http://www.w3.org/2000/svg', 'rect');
    const keys = { class: 'here', x: it.x - 8, y: band.first - 14, width: 16, height: band.low - band.first + 44 };
    for (const [key, value] of Object.entries(keys)) mark.setAttribute(key, String(value));
    svg.prepend(mark);
  }
}
export function mark_picture() {
  for (const it of all('#drawing .here')) it.remove();
  for (const band of new Set(columns.get(now.shown)?.map(it => it.band)))
    if (band.box.firstChild) mark_band(band);
    else draw_band(band);
  const at = all('#drawing .here')[0], box = $('drawing');
  if (!at) return;
  const here = at.getBoundingClientRect(), around = box.getBoundingClientRect();
  const beside = here.left < around.left + 20 || here.right > around.right - 20;
  if (beside) box.scrollLeft += here.left - around.left - around.width / 2;
  if (here.top < around.top) box.scrollTop += here.top - around.top - 10;
  else if (here.bottom > around.bottom && here.height < around.height)
    box.scrollTop += here.bottom - around.bottom + 10;
}
