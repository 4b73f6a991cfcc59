// The text or the exercise as a link, and the link as a QR code that a class scans from a projector.
import { $, now, escaped } from './now.js';
import { copied, kept, link_of, own_place } from './kept.js';
import { qr_of, qr_svg } from './qr.js';

// A code of level M, which may have spots, where it has at most so many points across; else one of level L.
const FEW = 97, MOST_BYTES = 2953, PLACE = 'address for the class';
/** What the code that is shown opens. */
/** @type {{ kind: string, it: any }} */
let coded = { kind: '', it: { title: '' } };

/** The name of a lesson in a link: its list and its title, with no number. @param {any} lesson */
export const name_of = lesson => `${lesson.group} ${lesson.title.replace(/^\d+\. /, '')}`.toLowerCase()
  .replace(/[^a-z0-9]+/g, '-').replace(/^-|-$/g, '');
/** What is shared: a lesson or an exercise by its name or whole while its text is as it was given, else the text. */
function shared() {
  const text = $('text').value, bank = $('bank').value, { title, exercise, own } = now.lesson;
  const is_plain = text === now.lesson.text && bank === (now.lesson.bank || '');
  if (is_plain && !own) return { kind: 'lesson', it: { title, name: name_of(now.lesson) } };
  return exercise?.text === text ? { kind: 'exercise', it: exercise }
    : { kind: 'text', it: { title, text, ...(bank.trim() ? { bank } : {}) } };
}
export async function share() {
  const { kind, it } = shared(), to = await link_of(kind, it);
  history.replaceState(null, '', to);
  const done = await copied(to);
  const here = location.protocol === 'file:' ? '; it opens where this page has this address' : '';
  $('status').textContent = `${done ? 'link copied' : 'the link is in the address'} (${to.length} characters)${here}`;
}
/** The code of a link: of level M while it is small; null where the link is too long for any. @param {string} link */
export function code_of(link) {
  const code = qr_of(link, 'M');
  return code && code.rows.length <= FEW ? code : qr_of(link, 'L');
}
/** Why other devices cannot open a link, or nothing. @param {string} link */
function closed_text(link) {
  const why = !/^https?:/.test(link) ? 'not of the web'
    : /^https?:\/\/(localhost|127\.[\d.]+|\[::1\]|0\.0\.0\.0)(:\d+)?([/#?]|$)/.test(link) ? 'of this device alone' : '';
  return why && ` This address is ${why}, so other devices cannot open it: write the address where the class has the page. `
    + 'It is kept in this browser.';
}
/** What is reported of a link and its code. @param {string} link @param {import('./qr.js').Code | null} code */
export function code_report(link, code) {
  const size = new TextEncoder().encode(link).length;
  if (!code) return `No code: the link has ${size} characters, and a QR code has room for ${MOST_BYTES}. `
    + 'The link itself works, and so does Save file.';
  return `${size} characters, ${code.rows.length} points across.${closed_text(link)}`;
}
/** Makes the code anew, for the address that is written. */
async function draw_code() {
  const link = await link_of(coded.kind, coded.it, $('code-place').value.trim().split('#')[0]), code = code_of(link);
  $('code-link').value = link;
  $('code-drawing').innerHTML = code ? qr_svg(code, `QR code of the link to ${escaped(coded.it.title)}`) : '';
  $('code-said').textContent = code_report(link, code);
}
/** Shows the code of what is shared, or of an exercise that is being made. @param {{ kind: string, it: any }} what */
export async function show_code(what = shared()) {
  coded = what;
  $('code-head').textContent = what.it.title;
  $('code-place').value = kept.get(PLACE) || own_place();
  await draw_code();
  $('code').showModal();
}
export function code_place_changed() {
  const place = $('code-place').value.trim();
  kept.set(PLACE, place && place !== own_place() ? place : null);
  draw_code();
}
export async function copy_code_link() {
  const done = await copied($('code-link').value);
  if (!done) $('code-link').select();
  $('code-said').textContent = done ? 'Link copied.' : 'The link is selected: copy it by Ctrl and C.';
}
