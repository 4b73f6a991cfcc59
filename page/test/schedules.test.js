// node --test test/: the schedule of a task set, with a worker that answers in place of the program.
import assert from 'node:assert/strict';
import test from 'node:test';
import { begin_program, schedule_of } from '../js/asks.js';
import { hide_schedule, put_chart } from '../js/schedules.js';

/** @type {any} */
const outside = globalThis;
/** How the worker answers a run, by its form. @type {Record<string, any>} */
let answers = {};
outside.Worker = class {
  postMessage(it) {
    const data = it.code ? { compiled: true } : { id: it.id, ms: 0, status: 0, out: '', err: '', ...answers[it.words[2]] };
    queueMicrotask(() => this.onmessage({ data }));
  }
  terminate() {}
};
/** Elements of the page, each made when it is asked for. @type {Map<string, any>} */
const elements = new Map();
outside.document = { getElementById: id => {
  const has = new Map([['width', '1280'], ['height', '300']]);
  const svg = { getAttribute: key => has.get(key), setAttribute: (key, value) => has.set(key, value) };
  const box = { innerHTML: '', hidden: false, get firstElementChild() { return this.innerHTML ? svg : null; },
    set textContent(text) { this.innerHTML = text; } };
  if (id === 'worker.js') return null;
  if (!elements.has(id)) elements.set(id, box);
  return elements.get(id);
} };
begin_program(new Uint8Array());
const text = { kind: 'tasks', text: '', bank: '' };

test('a run that was stopped is reported, with what it was for', async () => {
  answers = { '--svg': { status: -2, err: 'stopped after 10 s\n' }, '--bound': { out: 'jobs\n' } };
  const drawn = await schedule_of(text);
  assert.deepEqual([drawn.is_run, drawn.chart, drawn.report], [true, '', 'jobs\n']);
  assert.deepEqual(drawn.told.map(it => [it.fault, it.says]), [[false, 'the text was not drawn: stopped after 10 s']]);
  answers = { '--svg': { out: '<svg/>' }, '--bound': { status: -2, err: 'stopped by you\n' } };
  const run = await schedule_of(text);
  assert.deepEqual([run.is_run, run.chart, run.report], [false, '', '']);
  assert.deepEqual(run.told.map(it => [it.fault, it.says]), [[false, 'the text was not run: stopped by you']]);
});
test('a refused text is at fault, one that was cut off is not', async () => {
  answers = { '--bound': { status: 2, err: 'lab: scenario.toml:4: task 1: every: ..\n' } };
  assert.deepEqual((await schedule_of(text)).told.map(it => [it.fault, it.line, it.says]), [[true, 3, 'task 1: every: ..']]);
  answers = { '--bound': { status: 5, out: 'jobs\n', err: 'lab: the history is full\n' } };
  assert.deepEqual((await schedule_of(text)).told.map(it => [it.fault, it.says]), [[false, 'the history is full']]);
});
test('a chart has a view box, and goes with the schedule', () => {
  put_chart('<svg/>');
  const chart = elements.get('chart');
  assert.equal(chart.firstElementChild.getAttribute('viewBox'), '0 0 1280 300');
  hide_schedule();
  assert.equal(chart.innerHTML, '');
});
