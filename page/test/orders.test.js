// node --test test/: what is said of orders, over the texts of examples/orders and some of this file, by the program's module.
import assert from 'node:assert/strict';
import fs from 'node:fs';
import test from 'node:test';
import { gone_through, scenario_in_order } from '../js/asks.js';
import { verdict_of } from '../js/orders.js';
import { read_report } from '../js/reads.js';
import { ask_of, has_callers } from '../js/text.js';
import { begin, skip } from './program.mjs';

const folder = new URL('../../examples/orders/', import.meta.url);
const texts = ['', 'asked/', 'steps/'].flatMap(name => fs.readdirSync(new URL(name, folder)).filter(it => it.endsWith('.toml'))
  .map(it => ({ name: name + it, text: fs.readFileSync(new URL(name + it, folder), 'utf8') })));
const explored = async (/** @type {string} */ text, bank = '') => gone_through({ kind: 'orders', text, bank }, ask_of(text), () => {});
const table = it => '[[step]]\n' + Object.entries(it).map(([key, value]) => `${key} = ${JSON.stringify(value)}\n`).join('');
const attached = (/** @type {number[]} */ ...threads) => threads.map(who =>
  table({ do: 'attach', who, policy: 'fifo 10', stage: 'oob' }).replace('step', 'setup')).join('');
const BOARD = '[board]\nthreads = 3\nsems = [1, 1]\n';

test('each outcome that is against what is asked is marked, and its order opens', { skip }, async () => {
  begin();
  const { Runner } = await import('../js/program.js'), plain = new Runner(fs.readFileSync(new URL('../out/site/lab.wasm', import.meta.url)));
  let count = 0;
  // (two of them take half a minute each)
  for (const { name, text } of texts.filter(it => !has_callers(it.text) && !/late_deadlock|five_philosophers/.test(it.name))) {
    const found = await explored(text), report = await plain.ask(['orders', name], { [name]: text });
    const said = report.err.match(/outcome (\d+) is against/)?.[1], bad = found.outcomes.filter(o => o.against).map(o => o.number);
    assert.equal(found.status, report.status, name);
    assert.equal(said, bad[0], name);
    const parts = read_report(report.out);
    for (const [own, is] of [[found.outcomes, parts.outcomes], [found.states, parts.states]]) {
      assert.equal(own.length, is.length, name);
      for (const [i, it] of own.entries()) {
        assert.deepEqual([it.number, it.count, it.stuck, it.answers, it.ends, it.asks, it.order], [is[i].number, is[i].count, is[i].stuck, is[i].answers, is[i].ends, is[i].asks, is[i].order]);
        if (it.has_order) assert.equal(await scenario_in_order(found.of, it), is[i].text, `${name}, ${it.order}`);
        count++;
      }
    }
  }
  assert.ok(count > 40, `${count}`);
});
test('of ends_waits and of quoted names each outcome is marked, too', { skip }, async () => {
  begin();
  const steps = table({ do: 'begin_get', who: 1, sem: 0 }) + table({ do: 'begin_get', who: 1, sem: 1 }) + table({ do: 'begin_get', who: 2, sem: 0 }) + table({ do: 'put', who: 2, sem: 1 });
  const both = await explored(`${BOARD}${attached(1, 2)}[ask]\nends_waits = true\n${steps}`);
  assert.ok(both.outcomes.length > 1);
  assert.deepEqual(verdict_of(both).slice(0, 1).concat(both.outcomes.map(o => o.against)), ['bad', ...both.outcomes.map(() => true)]);
  assert.match(verdict_of(both)[1], /^No: outcomes 1, 2.* contradict what is asked\.$/);
  const quoted = await explored(`${BOARD}[ask]\nnever = ['T1 -> done']\n${table({ do: 'put', who: 1, sem: 0 })}${table({ do: 'put', who: 2, sem: 0 })}`);
  assert.deepEqual([verdict_of(quoted)[1], quoted.outcomes.map(o => o.against)], ['No: outcome 1 contradicts what is asked.', [true]]);
  const count = await explored(`${BOARD}[ask]\noutcomes = 3\n${table({ do: 'put', who: 1, sem: 0 })}`);
  assert.deepEqual(verdict_of(count), ['bad', 'No: 3 outcomes are asked for, and there is 1.']);
  const moment = await explored(`${BOARD}[ask]\nnever_state = ["sem 0 count = 2"]\nnever = ["T1 -> done"]\n${table({ do: 'put', who: 1, sem: 0 })}`);
  assert.deepEqual(verdict_of(moment), ['bad', 'No: outcome 1 and state 1 contradict what is asked.']);
});
test('a yes that the program warns of is no green one, and threads that are picked are named', { skip }, async () => {
  begin();
  const put = table({ do: 'put', who: 1, sem: 0 }), ask = '[ask]\nalways_ends = true\n';
  assert.deepEqual(verdict_of(await explored(BOARD + ask + put)), ['good', 'Yes: what is asked holds in the one order.']);
  assert.deepEqual(verdict_of(await explored(`${BOARD}${ask}as_picked = true # one processor\n${put}`)),
    ['good', 'Yes: what is asked holds in the one order as threads are picked.']);
  const wait = table({ do: 'begin_get', who: 1, sem: 0 }), [how, says] = verdict_of(await explored(BOARD + attached(1) + ask + wait));
  assert.equal(how, 'unknown');
  assert.match(says, /^What is asked holds in the one order, but check that it is what you mean: T1 has no finish/);
  const [refused, why] = verdict_of(await explored(BOARD + ask + wait));
  assert.deepEqual([refused, /answered Invalid in every order/.test(why)], ['unknown', true]);
});
test('of atomic steps the first contradiction is named, and no other one is claimed', { skip }, async () => {
  begin();
  const { text } = texts.find(it => it.name === 'steps/stax_2.toml') || { text: '' }, found = await explored(text);
  assert.deepEqual(verdict_of(found), ['bad', 'No: outcome 4 is the first that contradicts what is asked.']);
  assert.deepEqual([found.outcomes.filter(o => o.against).map(o => o.number), found.outcomes[3].turns], [['4'], ['--outcome', '4']]);
  const { text: refused } = texts.find(it => it.name === 'steps/set_up_put.toml') || { text: '' };
  assert.match(verdict_of(await explored(refused))[1], /^The orders were not explored: bad step 1: what is set up is attach/);
});
test('what is cut off is not answered', { skip }, async () => {
  const it = { status: 5, err: '', asks: '[ask]', whole: false, orders: '3', outcomes: [], states: [], doubts: [] };
  assert.equal(verdict_of(it)[0], 'unknown');
  assert.equal(verdict_of({ ...it, status: -2, err: 'stopped by you\n' })[1].slice(0, 29), 'Not answered: stopped by you.');
});
