// node --test test/: one's own texts, of which the newest are kept: none takes another one's place; two tabs; links.
import assert from 'node:assert/strict';
import test from 'node:test';
import { lesson_of_file, lesson_of_link, lesson_of_outcome, lesson_of_tab } from '../js/brought.js';
import { exercise_lesson } from '../js/exercise.js';
import { hash_of, keep_texts, kept_text, link_of } from '../js/kept.js';
import { save_exercise } from '../js/make.js';
import { add_mine, is_listed, show_mine } from '../js/mine.js';
import { now } from '../js/now.js';

/** What stands for the browser's store and its page. @type {any} */
const outside = globalThis, held = new Map(), boxes = new Map();
const box = (/** @type {string} */ id) => {
  if (!boxes.has(id)) boxes.set(id, { value: '', textContent: '', className: '', innerHTML: '' });
  return boxes.get(id);
};
outside.localStorage = { getItem: (/** @type {string} */ key) => held.get(key) ?? null,
  setItem: (/** @type {string} */ key, /** @type {string} */ text) => held.set(key, text),
  removeItem: (/** @type {string} */ key) => held.delete(key) };
outside.document = { getElementById: box, createElement: () => ({ click() {} }) };

test('of more than 60 texts the newest are kept, and that is said', () => {
  const add = (/** @type {number} */ it) => {
    held.set(`evl text mine ${it}`, 'changed');
    add_mine({ key: `mine ${it}`, title: `My text ${it}`, text: 'a', own: true });
  };
  for (let it = 1; it < 60; it++) add(it);
  show_mine(() => {});
  assert.doesNotMatch(box('mine').innerHTML, /newest/);
  for (let it = 60; it < 63; it++) add(it);
  show_mine(() => {});
  assert.match(box('mine').innerHTML, /The newest 60 are kept/);
  const keys = JSON.parse(held.get('evl mine')).map((/** @type {any} */ it) => it.key);
  assert.deepEqual([keys.length, keys[0], keys[59]], [60, 'mine 62', 'mine 3']);
  assert.deepEqual([held.has('evl text mine 2'), held.has('evl text mine 3')], [false, true]);
});
test('an exercise without its solution is not tried', async () => {
  Object.assign(box('make-text'), { value: '____' });
  Object.assign(box('make-by-lines'), { checked: true });
  await save_exercise();
  assert.equal(box('make-said').textContent, 'The exercise is saved as a file, and has no solution that could be tried.');
  assert.equal(box('make-said').className, 'unknown');
});
/** Opens the page's store anew, with what was in it. @param {Record<string, string>} had */
function with_store(had = {}) {
  held.clear();
  for (const [key, text] of Object.entries(had)) held.set(`evl ${key}`, text);
}
/** Adds a text as opening it does, and writes into it. @param {any} it @param {string} [written] */
function opened(it, written) {
  add_mine(it);
  if (written !== undefined) held.set(`evl text ${it.key}`, written);
  return it;
}
const titles = () => JSON.parse(held.get('evl mine')).map((/** @type {any} */ it) => it.title);
const arrived = async (/** @type {string} */ kind, /** @type {any} */ it) => {
  outside.location = { hash: new URL(await link_of(kind, it, 'https://lab.example/evl.html')).hash };
  return lesson_of_link([]);
};

test('links of texts that differ late have two keys, and one link has one', async () => {
  with_store();
  const text = `[board]\nthreads = 4\n${'[[step]]\ndo = "put"\nwho = 0\n'.repeat(20)}`;
  const anna = opened(await arrived('text', { title: 'Lesson', text: `${text}# Anna\n` }), 'with points');
  const bernd = opened(await arrived('text', { title: 'Lesson', text: `${text}# Bernd\n` }));
  assert.notEqual(anna.key, bernd.key);
  assert.deepEqual([bernd.text.endsWith('# Bernd\n'), titles()], [true, ['Lesson (2)', 'Lesson']]);
  assert.equal((await arrived('text', { title: 'Lesson', text: `${text}# Anna\n` })).key, anna.key);
  assert.equal(held.get(`evl text ${anna.key}`), 'with points');
  const names = [...Array(30).keys()].map(n => hash_of(`${text}# student ${n}`));
  assert.equal(new Set(names).size, 30);
  assert.match(names[0], /^[0-9a-f]{16}$/);
});
test('a link that was kept by an older key is the same text still', async () => {
  with_store({ mine: JSON.stringify([{ key: 'link rZDBCsIwEETvfkXIWQ', title: 'Lesson', text: 'a' }]), 'text link rZDBCsIwEETvfkXIWQ': 'a changed' });
  const it = await arrived('text', { title: 'Lesson', text: 'a' });
  assert.equal(kept_text(it, 'text'), 'a changed');
});
test('a second file, and a second outcome, of one name stays beside the first', () => {
  with_store();
  const first = opened(lesson_of_file('scenario.toml', 'a'), 'a with an hour of work'), second = opened(lesson_of_file('scenario.toml', 'b'));
  assert.deepEqual([second.text, titles()], ['b', ['scenario.toml (2)', 'scenario.toml']]);
  assert.equal(kept_text(first, 'text'), 'a with an hour of work');
  const again = opened(lesson_of_file('scenario.toml', 'a'));
  assert.deepEqual([again.text, kept_text(again, 'text'), again.title], ['a', null, 'scenario.toml (3)']);
  assert.equal(lesson_of_file('scenario.toml', 'b').key, second.key);
  const outcomes = [1, 2].map(n => opened(lesson_of_outcome({ title: `Outcome ${n} (3 orders), in the order T1`, text: `${n}` }), 'noted'));
  assert.notEqual(outcomes[0].key, outcomes[1].key);
  assert.deepEqual(titles().slice(0, 2), ['Outcome 2 (3 orders)', 'Outcome 1 (3 orders)']);
});
test('an answer belongs to the exercise with just this content', async () => {
  with_store();
  const of = (/** @type {string} */ question, text = 'a ____') => ({ title: 'Week 3', question, text, solution: 'a b', check: 'trace' });
  const first = opened(await arrived('exercise', of('Which?')), 'a my answer'), second = await arrived('exercise', of('Which one?'));
  assert.notEqual(first.key, second.key);
  assert.equal(kept_text(second, 'text'), null);
  assert.equal((await arrived('exercise', of('Which?'))).key, first.key);
  assert.equal(lesson_of_file('week_3.json', JSON.stringify(of('Which?'))).key, first.key);
  const own = exercise_lesson(of('Which?')), other = exercise_lesson(of('Which?', 'c ____'));
  assert.notEqual(own.key, first.key);
  assert.notEqual(own.key, other.key);
  assert.equal(own.was, 'exercise Week 3');
});
test('what was removed is brought back, with what was written into it', () => {
  with_store();
  for (const name of ['a', 'b', 'c']) opened(lesson_of_file(name, name), `${name} changed`);
  const before = held.get('evl mine'), keys = JSON.parse(before).map((/** @type {any} */ it) => it.key);
  show_mine(() => {});
  const click = (/** @type {any} */ target) => box('mine').onclick({ target: { dataset: {}, ...target } });
  click({ dataset: { drop: '1' } });
  assert.deepEqual([titles(), held.has(`evl text ${keys[1]}`)], [['c', 'a'], false]);
  assert.match(box('mine').innerHTML, /Removed: b <button id="undo-drop">Undo/);
  click({ dataset: { drop: '0' } });
  click({ id: 'undo-drop' });
  click({ id: 'undo-drop' });
  assert.equal(held.get('evl mine'), before);
  assert.deepEqual(keys.map((/** @type {string} */ key) => held.get(`evl text ${key}`)), ['c changed', 'b changed', 'a changed']);
  assert.doesNotMatch(box('mine').innerHTML, /undo-drop/);
});
test('what another tab wrote into the same text is not overwritten without a word', () => {
  with_store();
  now.lesson = { key: 'Lessons 1', title: '1. An interrupt', text: 'given' };
  assert.equal(kept_text(now.lesson, 'text'), null);
  const write = (/** @type {string} */ text) => { box('text').value = text; box('bank').value = ''; return keep_texts(); };
  assert.equal(write('mine'), null);
  assert.equal(write('mine too'), null);
  held.set('evl text Lessons 1', 'theirs');
  const other = write('mine again');
  assert.deepEqual(other, { text: 'theirs', bank: '' });
  assert.equal(held.get('evl text Lessons 1'), 'mine again');
  const it = opened(lesson_of_tab(other));
  assert.deepEqual([it.title, it.text], ['1. An interrupt (from another tab)', 'theirs']);
  assert.equal(write('mine at last'), null);
  held.set('evl text Lessons 1', 'mine, the same');
  assert.equal(write('mine, the same'), null);
  assert.ok(!is_listed({ key: 'file none', own: true }) && is_listed(it) && is_listed(now.lesson));
});
