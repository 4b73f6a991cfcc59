// The page: lessons, tabs, bars, keys, and what is done when a text changes.
import { $, all, escaped, now, on, text_now, NARROW } from './now.js';
import { begin_program, calls, checked, converted, run, stop_orders, stop_runs } from './asks.js';
import { hide_schedule, show_schedule } from './schedules.js';
import { close_offers, offer_calls, offer_key, take_offer } from './complete.js';
import { begin_console, console_key, offer_in_line, say, scenario_of_console } from './console.js';
import { find, go_to, indent, offer_in_bank, offer_in_text, open_side, paint, paint_all } from './editor.js';
import { put_fix, refit_text, show_faults } from './editor.js';
import { wire_bars } from './bars.js';
import { lesson_of_file, lesson_of_link, lesson_of_outcome, lesson_of_tab } from './brought.js';
import { check_exercise, exercise_lesson, show_task } from './exercise.js';
import { exercise_asked, exercise_made, make_exercise, make_hole, save_exercise, show_wanted } from './make.js';
import { add_mine, is_listed, mine_of, rename, show_mine } from './mine.js';
import { box_of_key, keep_texts, kept, kept_text, put_text, save_file, undo_key } from './kept.js';
import { first_view, go_orders, part_shown, show_pictures } from './orders.js';
import { draw_all, mark_picture, refit, zoom_by } from './picture.js';
import { json_of, part_of, RUN_SECONDS } from './program.js';
import { FILE } from './reads.js';
import { code_place_changed, copy_code_link, name_of, share, show_code } from './share.js';
import { draw_again, fill_trace, know_bank, play_text, show_none, show_state, turn_by, walk } from './steps.js';
import { has_words, is_lines, kind_of, steps_of, KINDS } from './text.js';

const LISTED = 1400, WAIT = 40;
/** The lessons of the page, in their order. @type {any[]} */
let lessons = [];
/** @type {number | undefined} */
let timer;
/** When the text was edited last: the first edit after a rest is answered at once, what follows when it rests. */
let edited = 0;

/** What the kind of the text changes on the page. @param {string} was */
function show_kind(was) {
  document.body.dataset.kind = now.kind;
  $('kind').textContent = KINDS[now.kind];
  $('as-bank').hidden = now.kind !== 'bank';
  $('form').hidden = now.kind !== 'play';
  $('form').textContent = is_lines($('text').value) ? 'As tables' : 'As lines';
  $('bank-tab').classList.toggle('used', !!$('bank').value.trim());
  $('orders-tab').hidden = now.kind !== 'orders';
  if (now.kind === 'orders' && was !== 'orders' && tab_now() === 'walk') open_tab('orders');
  if (now.kind === 'orders') return;
  if (tab_now() === 'orders') open_tab('walk');
  stop_orders('the text was edited');
  $('verdict').textContent = '';
}
/** After a second, how long the text is played and drawn already; it can be stopped. @param {number} mine */
function watch_run(mine) {
  let seconds = 0;
  const clock = setInterval(() => {
    const goes = mine === now.turn && document.body.dataset.waits && now.kind !== 'orders';
    if (!goes) return clearInterval(clock);
    $('busy').hidden = false;
    $('busy-says').textContent = `Playing and drawing: ${++seconds} s (at most ${RUN_SECONDS} s each)`;
  }, 1000);
}
/** Checks, plays and draws the text. */
async function play() {
  const mine = ++now.turn, was = document.body.dataset.kind || '', text = $('text').value;
  document.body.dataset.waits = 'yes';
  watch_run(mine);
  now.steps = steps_of(text);
  now.kind = kind_of(text);
  now.viewed = null;
  $('viewed').hidden = true;
  if (now.kind !== 'tasks') hide_schedule();
  show_kind(was);
  begin_console();
  if (now.kind === 'orders') {
    now.told = await checked(text_now());
    if (mine === now.turn) await play_orders(mine);
  } else if (now.kind === 'tasks') {
    const told = await show_schedule(mine);
    if (mine !== now.turn) return;
    now.told = told;
  } else if (now.kind === 'bank' || now.kind === 'empty') {
    now.told = await checked(text_now());
    show_none(now.kind === 'empty' ? 'The text is empty.' : 'These are callbacks: they belong in their own tab.');
  } else {
    const shown = play_text(mine), [told, answer] = await Promise.all([checked(text_now()), shown]);
    if (mine !== now.turn) return;
    now.told = answer.status && !told.some(it => it.fault) ? told.concat(answer.told) : told;
  }
  if (mine !== now.turn) return;
  show_faults();
  paint();
  document.body.dataset.at ||= String(performance.now());
  document.body.dataset.done = String(mine);
  $('busy').hidden = true;
  delete document.body.dataset.waits;
}
/** @param {number} mine */
async function play_orders(mine) {
  show_faults();
  paint();
  show_none('An outcome is shown here after all orders have been explored.');
  const answer = await go_orders(mine, text_now());
  if (mine !== now.turn || !answer) return;
  if (!now.told.length) now.told = answer.told;
  const first = await first_view(answer);
  if (mine !== now.turn) return;
  now.viewed = first;
  if (!now.viewed) return show_none('There is no outcome to show.');
  await play_text(mine, now.viewed.step);
}
/** Keeps what is written; what another tab wrote into the same text meanwhile becomes a text of one's own. */
function keep() {
  const other = keep_texts(), found = other && lesson_of_tab(other), is_new = !is_listed(now.lesson);
  if (found) add_mine(found);
  if (is_new) add_mine(now.lesson);
  if (found || is_new) show_mine(choose);
  $('status').textContent = found ? `Another tab has changed this text too: what it wrote is in My texts, as "${found.title}".` : '';
}
/** Another tab has written: the text that is open here too is shown as it is there. @param {StorageEvent} event */
function follow_tab(event) {
  const id = box_of_key(event.key);
  if (event.key === 'evl mine') show_mine(choose);
  if (!id) return;
  const own = id === 'text' ? now.lesson.text : now.lesson.bank || '', text = kept_text(now.lesson, id) ?? own;
  if ($(id).value === text) return;
  $(id).value = text;
  changed_text();
  $('status').textContent = 'Changed in another tab.';
}
function changed_text() {
  now.steps = steps_of($('text').value);
  paint();
  keep();
  document.body.dataset.waits = 'yes';
  clearTimeout(timer);
  const rests = performance.now() - edited > WAIT;
  edited = performance.now();
  if (rests) play();
  else timer = setTimeout(play, WAIT);
}
/** The way on, at the end of a lesson. @param {any} it */
function next_of(it) {
  const next = lessons[lessons.indexOf(it) + 1];
  return it.story && next && lessons.includes(it) ? `<p><button id="next">Next: ${escaped(next.title)} ▶</button></p>` : '';
}
/** Opens what was chosen, and goes to its name. @param {any} it */
function choose(it) {
  $('status').textContent = '';
  open_lesson(it);
  $('name').focus();
}
/** What was kept of an exercise before its key had a hash, if it is no text of one's own. @param {any} it */
function move_kept(it) {
  if (!it.was || it.own || mine_of(it.was) || kept.get('text ' + it.key) !== null) return;
  for (const id of ['text', 'bank']) {
    const had = kept.get(`${id} ${it.was}`);
    if (had !== null && kept.set(`${id} ${it.key}`, had)) kept.set(`${id} ${it.was}`, null);
  }
}
/** @param {any} it */
async function open_lesson(it) {
  now.lesson = it;
  now.shown = 0;
  add_mine(it);
  show_mine(choose);
  $('name').contentEditable = String(Boolean(it.own));
  $('name').tabIndex = it.own ? 0 : -1;
  for (const button of all('#list button')) {
    const is = button.dataset.key === it.key;
    button.classList.toggle('now', is);
    button.toggleAttribute('aria-current', is);
    if (is) button.scrollIntoView({ block: 'nearest' });
  }
  $('name').textContent = it.title;
  document.title = `${it.title} - the lab`;
  move_kept(it);
  $('text').value = kept_text(it, 'text') ?? it.text;
  $('bank').value = kept_text(it, 'bank') ?? (it.bank || '');
  $('story').innerHTML = (it.story || '') + next_of(it);
  $('find').value = $('found').textContent = '';
  $('story-tab').hidden = !it.story || it.exercise;
  $('editor').scrollTop = $('side-story').scrollTop = 0;
  kept.set('last', it.key);
  keep_texts();
  open_side(it.story && !it.exercise && $('text').value === it.text ? 'story' : 'text');
  now.told = [];
  now.steps = steps_of($('text').value);
  paint();
  show_task();
  if (innerWidth < LISTED) show_list(false);
  const tab = tab_now(), orders = kind_of($('text').value) === 'orders';
  open_tab(innerWidth <= NARROW && it.story ? 'left' : orders ? 'orders' : tab === 'orders' ? 'walk' : tab);
  return play();
}
function rename_text() {
  if (rename($('name').textContent)) show_mine(choose);
  $('name').textContent = now.lesson.title;
  document.title = `${now.lesson.title} - the lab`;
}
const tab_now = () => all('#tabs [aria-selected="true"]')[0]?.dataset.pane || 'walk';
/** @param {string} name */
function open_tab(name) {
  for (const it of all('.pane')) it.hidden = it.id !== name;
  for (const it of all('#tabs [role=tab]')) {
    it.setAttribute('aria-selected', String(it.dataset.pane === name));
    it.tabIndex = it.dataset.pane === name ? 0 : -1;
  }
  document.body.dataset.tab = name;
  if (name === 'walk') {
    refit();
    mark_picture();
  }
  if (name === 'console') $('line').focus();
}
/** @param {boolean} open */
function show_list(open) {
  document.body.classList.toggle('listed', open);
  $('lessons-button').setAttribute('aria-expanded', String(open));
  refit();
}
/** Arrow keys on a tab open the next one; else they walk through the steps, but where one types. @param {any} event */
function keys(event) {
  const by = { ArrowLeft: '-1', ArrowUp: '-1', ArrowRight: '1', ArrowDown: '1', Home: 'first', End: 'last' };
  const step = by[event.key];
  if (!step || document.querySelector('dialog[open]')) return;
  const it = event.target, plain = !event.altKey && !event.ctrlKey && !event.metaKey;
  if (it.getAttribute('role') === 'tab') {
    const tabs = [...it.parentNode.querySelectorAll('[role=tab]')].filter(tab => tab.offsetParent);
    const next = (tabs.indexOf(it) + Number(step) + tabs.length) % tabs.length;
    const to = step === 'first' ? 0 : step === 'last' ? tabs.length - 1 : next;
    event.preventDefault();
    tabs[to].click();
    return tabs[to].focus();
  }
  const typing = it.isContentEditable || /^(TEXTAREA|INPUT|SELECT)$/.test(it.tagName) && it.type !== 'range';
  const anywhere = tab_now() === 'walk' && (/Left|Right/.test(event.key) || it === document.body || it.id === 'name');
  const walks = typing ? it.id === 'text' && event.altKey && /Up|Down/.test(event.key)
    : plain && (it.id === 'lines' || it.id === 'slider' || anywhere);
  if (!walks) return;
  event.preventDefault();
  walk(step);
}
/** Plays and draws here what the repository has traces and pictures of, and counts how many are the same. */
async function compare() {
  const stored = await json_of('stored.json'), begun = performance.now(), differ = [];
  for (const it of stored) {
    const { status, out, err } = await run(it.words, it.text);
    if (out + (status ? err.replace(FILE, it.name) : '') !== it.told) differ.push(it.name);
  }
  const seconds = ((performance.now() - begun) / 1000).toFixed(1), same = stored.length - differ.length;
  $('compared').textContent = `${same} of ${stored.length} are the same, ${seconds} s`
    + (differ.length ? `; not ${differ.join(', ')}` : '');
}
/** A text from a file: callbacks go to their own tab; another text or an exercise is a lesson. @param {File} file */
async function take_file(file) {
  const text = (await file.text()).replace(/\r\n/g, '\n');
  if (kind_of(text) !== 'bank') return open_lesson(lesson_of_file(file.name, text));
  open_side('bank');
  put_text($('bank'), text);
  changed_text();
}
function save_text() {
  const bank = !$('side-bank').hidden, title = now.lesson.title.toLowerCase().replace(/\.(toml|txt)$/, '');
  const name = bank ? 'callbacks' : title.replace(/[^a-z0-9]+/g, '_').replace(/^_+|_+$/g, '') || 'scenario';
  const text = $(bank ? 'bank' : 'text').value;
  save_file(name + (is_lines(text) ? '.txt' : '.toml'), text);
}
function put_as_bank() {
  const text = $('text').value, own = now.lesson.text;
  put_text($('text'), kind_of(own) === 'bank' ? '' : own);
  open_side('bank');
  put_text($('bank'), text);
  changed_text();
}
/** The scenario in its other form. */
async function change_form() {
  const { text, why } = await converted($('text').value);
  $('status').textContent = why && `It cannot be converted: ${why}`;
  if (why) return;
  open_side('text');
  put_text($('text'), text);
  changed_text();
}
/** @param {any} view */
function view(view) {
  now.viewed = view;
  now.turn++;
  begin_console();
  open_tab('walk');
  return play_text(now.turn, view.step);
}
/** Control and blank ask what may come here. @param {any} event @param {(asked: boolean) => void} does */
function asks_offer(event, does) {
  if (event.key !== ' ' || !event.ctrlKey) return false;
  event.preventDefault();
  does(true);
  return true;
}
function wire_texts() {
  for (const id of ['text', 'bank']) {
    on(id, 'input', changed_text);
    const offers = id === 'text' ? offer_in_text : offer_in_bank;
    on(id, 'keydown', event => undo_key(event) || offer_key(event) || asks_offer(event, offers) || indent(event));
    on(id, 'input', event => { if (event.isTrusted) offers(); });
    on(id, 'blur', close_offers);
  }
  for (const id of ['story', 'text', 'bank']) on(id + '-tab', 'click', () => open_side(id));
  on('line', 'input', event => { if (event.isTrusted) offer_in_line(); });
  on('line', 'blur', close_offers);
  on('line', 'keydown', event => offer_key(event) || asks_offer(event, offer_in_line) || console_key(event));
  on('offers', 'pointerdown', event => {
    event.preventDefault();
    if (event.target.dataset.n) take_offer(Number(event.target.dataset.n));
  });
  on('find', 'keydown', event => { if (event.key === 'Enter') { event.preventDefault(); find(event.shiftKey); } });
  on('find-next', 'click', () => find(false));
  on('faults', 'click', event => {
    const { i, fix } = event.target.dataset, it = now.told[i ?? fix];
    if (i && it.line !== undefined) go_to(it);
    if (fix) put_fix(it);
  });
  on('as-bank', 'click', put_as_bank);
  on('form', 'click', change_form);
}
function wire_views() {
  const to_step = (/** @type {any} */ event) => {
    const it = event.target.closest('[data-step]');
    if (it) show_state(Number(it.dataset.step));
  };
  on('lines', 'click', to_step);
  on('story', 'click', event => {
    const link = event.target.closest('a[href^="#lesson="]');
    if (event.target.id === 'next') choose(lessons[lessons.indexOf(now.lesson) + 1]);
    else if (link) {
      event.preventDefault();
      choose(lessons.find(it => name_of(it) === link.hash.slice('#lesson='.length)));
    } else to_step(event);
    if (event.target.dataset.step && innerWidth <= NARROW) open_tab('walk');
  });
  on('drawing', 'click', to_step);
  on('slider', 'input', () => show_state(Number($('slider').value)));
  for (const it of all('[data-walk]')) it.onclick = () => walk(it.dataset.walk);
  for (const it of all('[data-turn]')) it.onclick = () => turn_by(it.dataset.turn);
  on('way', 'change', () => { kept.set('way', $('way').value); draw_again(); });
  for (const it of all('[data-zoom]')) it.onclick = () => { zoom_by(Number(it.dataset.zoom)); mark_picture(); };
  for (const it of all('[role=tab][data-pane]')) it.onclick = () => open_tab(it.dataset.pane);
  on('key-button', 'click', () => {
    $('key-button').setAttribute('aria-expanded', String(!document.body.classList.toggle('keyless')));
    refit();
  });
  on('outcomes', 'click', event => {
    const opens = event.target.closest('[data-open]');
    if (opens) part_shown(Number(opens.dataset.open)).then(view);
  });
  on('pictures', 'click', show_pictures);
  on('orders-stop', 'click', () => stop_orders('stopped by you'));
  on('busy-stop', 'click', () => stop_runs('stopped by you'));
  on('viewed-back', 'click', () => open_tab('orders'));
  on('viewed-take', 'click', () => {
    open_lesson(lesson_of_outcome(now.viewed));
  });
  on('asks', 'submit', event => {
    const line = $('line').value.trim();
    event.preventDefault();
    $('line').value = '';
    if (line) say(line);
  });
  on('undo', 'click', () => say('undo'));
  on('to-text', 'click', async () => {
    const text = await scenario_of_console();
    if (!text.trim()) return;
    put_text($('text'), text);
    changed_text();
    open_tab('walk');
  });
}
function wire_head() {
  on('more', 'click', () => $('more').setAttribute('aria-expanded', String(document.body.classList.toggle('more'))));
  on('lessons-button', 'click', () => show_list(!document.body.classList.contains('listed')));
  on('open', 'click', () => $('file').click());
  on('file', 'change', event => {
    if (event.target.files[0]) take_file(event.target.files[0]);
    event.target.value = '';
  });
  on('save', 'click', save_text);
  on('name', 'blur', rename_text);
  on('name', 'focus', () => { if ($('name').isContentEditable) getSelection()?.selectAllChildren($('name')); });
  on('name', 'keydown', event => {
    if (event.key !== 'Enter' && event.key !== 'Escape') return;
    event.preventDefault();
    if (event.key === 'Escape') $('name').textContent = now.lesson.title;
    $('name').blur();
  });
  on('back-to', 'click', () => {
    put_text($('text'), now.lesson.text);
    put_text($('bank'), now.lesson.bank || '');
    changed_text();
  });
  on('link', 'click', share);
  on('code-button', 'click', () => show_code());
  on('code-place', 'change', code_place_changed);
  on('code-copy', 'click', copy_code_link);
  on('print', 'click', () => window.print());
  on('compare', 'click', compare);
  on('check', 'click', check_exercise);
  on('make-button', 'click', make_exercise);
  on('make-done', 'click', exercise_made);
  on('make-by', 'change', show_wanted);
  on('make-hole', 'click', make_hole);
  on('make-save', 'click', save_exercise);
  on('make-code', 'click', () => show_code({ kind: 'exercise', it: exercise_asked() }));
  on('wide', 'click', () => {
    $('wide').setAttribute('aria-pressed', String(document.body.classList.toggle('wide')));
    if (tab_now() === 'left') open_tab('walk');
    refit();
    mark_picture();
  });
  document.addEventListener('keydown', keys);
  document.body.ondragover = event => event.preventDefault();
  document.body.ondrop = event => {
    const file = event.dataTransfer?.files[0];
    if (!file) return;
    event.preventDefault();
    take_file(file);
  };
  wire_bars();
}
function list_lessons() {
  let group = '', section = $('texts');
  section.innerHTML = '<section id="mine"></section>';
  for (const it of lessons) {
    if (it.group !== group) {
      group = it.group;
      section = document.createElement('section');
      section.innerHTML = `<h2>${group}</h2>`;
      $('texts').append(section);
    }
    const button = document.createElement('button');
    button.textContent = it.title;
    button.dataset.key = it.key;
    button.onclick = () => choose(it);
    section.append(button);
  }
}
/** Hides the lessons that have not all of the words that are sought. */
function seek() {
  const asked = $('seek').value.trim(), found = new Set(lessons.filter(it => has_words(it, asked)).map(it => it.key));
  for (const button of all('#texts section:not(#mine) button')) button.hidden = !found.has(button.dataset.key);
  for (const section of all('#texts section:not(#mine)')) section.hidden = !section.querySelector('button:not([hidden])');
  $('sought').textContent = asked && `${found.size} of ${lessons.length} texts`;
}
async function start() {
  begin_program(await part_of('lab.wasm'));
  const given = await json_of('lessons.json');
  know_bank(new TextDecoder().decode(await part_of('program.toml')));
  lessons = given.map((/** @type {any} */ it) =>
    it.exercise ? exercise_lesson(it.exercise) : { key: `${it.group} ${it.title}`, ...it });
  list_lessons();
  on('seek', 'input', seek);
  wire_texts();
  wire_views();
  wire_head();
  const picture_fits = new ResizeObserver(() => requestAnimationFrame(refit));
  for (const id of ['drawing', 'lines']) picture_fits.observe($(id));
  window.onbeforeprint = () => { draw_all(); fill_trace(); paint_all(); };
  const text_fits = new ResizeObserver(found => requestAnimationFrame(() => refit_text(found[0].contentRect.width)));
  text_fits.observe($('under'));
  matchMedia(`(max-width: ${NARROW}px)`).onchange = () => {
    if (innerWidth > NARROW && tab_now() === 'left') open_tab('walk');
    draw_again();
  };
  window.onhashchange = async () => { const it = await lesson_of_link(lessons); if (it) open_lesson(it); };
  window.onstorage = follow_tab;
  $('way').value = kept.get('way') || '';
  show_list(innerWidth >= LISTED);
  open_tab(innerWidth <= NARROW ? 'left' : 'walk');
  const key = kept.get('last'), last = lessons.find((/** @type {any} */ it) => it.key === key || it.was === key) || mine_of(key);
  await open_lesson(await lesson_of_link(lessons) || last || lessons[0]);
  offer_calls(await calls());
  document.body.dataset.ready = 'yes';
}
start().catch(error => { $('status').textContent = `The page could not start: ${error.message || error}`; });
