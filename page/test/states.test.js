// node --test test/: how a machine is after a step, as `play --states` tells it.
import assert from 'node:assert/strict';
import test from 'node:test';
import { changes_text, read_states, state_table } from '../js/states.js';

const STATE = { file: 'x', entries: 4, date: 7, picked: 1, ready: [1, 4],
  threads: [{ thread: 1, stage: 'oob', policy: 'fifo 10', rank: 532, waits: null },
    { thread: 2, stage: 'oob', policy: 'rr 20 500', rank: 532, waits: { for: 'sem', number: 0, ended: null } },
    { thread: 3, stage: 'inband', policy: 'weak 0', rank: 0, waits: { for: 'mutex', number: 1, ended: 'served' } },
    { thread: 4, stage: 'oob', policy: 'quota 0 7', rank: 263, waits: null },
    { thread: 5, stage: 'oob', policy: 'fifo 5', rank: 517, waits: { for: 'write', number: 0, way: 'in', ended: null } }],
  mutexes: [{ mutex: 1, owner: 1, waiting: [2, 5] }],
  sems: [{ sem: 0, count: -2, waiting: [5, 2] }, { sem: 1, count: 3, waiting: [] }],
  flags: [{ flags: 0, bits: 5, waiting: [] }],
  xbufs: [{ xbuf: 0, in: { bytes: 2, writing: [5], reading: [] }, out: { bytes: 0, writing: [], reading: [] } }],
  timers: [{ timer: 0, is: 'running', next: 50, interval: 0 }, { timer: 1, is: 'idle', next: null, interval: null }],
  oob: { stalled: true, pending: [3, 5] }, inband: { stalled: false, pending: [] } };

test('a state has its threads, attached or not, and a row for each element', () => {
  const { threads, rows } = state_table(STATE, 'board threads=6 sems=2 mutexes=2 groups=1');
  assert.deepEqual(threads.map(it => Object.values(it).join('|')), ['T0|in-band|–|–|–|', 'T1|oob|fifo 10|f20 ↑|picked|',
    'T2|oob|rr 20 500|f20|blocked|sem 0 (2 of 2)', 'T3|in-band|weak 0|w0|in-band|served: mutex 1',
    'T4|oob|quota 0 7|q7|ready|', 'T5|oob|fifo 5|f5|blocked|write xbuf 0 in']);
  assert.deepEqual([...rows], [['mutex 0', 'no owner'], ['mutex 1', 'owner T1, T2, T5 waiting'],
    ['sem 0', '0, T5, T2 waiting'], ['sem 1', '3'], ['flags 0', '5'],
    ['xbuf 0', 'in 2 bytes, T5 writing; out 0 bytes'], ['ready list', 'T1, T4'],
    ['out-of-band', 'stalled; line 3, line 5 pending'], ['in-band', 'nothing pending'],
    ['timer 0', 'next 50 interval 0'], ['timer 1', 'idle'], ['date', '7 ns']]);
});
test('a state is a line, and great numbers stay whole', () => {
  const out = '{"file": "x", "entries": 0, "date": 0}\n{"file": "x", "entries": 1, "date": 18446744073709551615}\n';
  assert.deepEqual(read_states(out).map(it => it.date), [0, '18446744073709551615']);
});
test('a rank that a mutex lends has an arrow, also where only the class differs', () => {
  const ranked = (/** @type {string} */ policy, /** @type {number} */ rank) =>
    state_table({ ...STATE, threads: [{ thread: 1, stage: 'oob', policy, rank, waits: null }] }, 'board threads=2').threads[1].rank;
  assert.deepEqual([['weak 10', 522], ['quota 0 10', 522], ['fifo 10', 522], ['rr 10 100', 522], ['weak 10', 10], ['quota 1 7', 263], ['fifo 10', 542]]
    .map(([policy, rank]) => ranked(policy, rank)), ['f10 ↑', 'f10 ↑', 'f10', 'f10', 'w10', 'q7', 'f30 ↑']);
});
test('of a step only what it changed is read out, and of much how much', () => {
  const columns = ['thread', 'stage', 'policy'], before = { threads: [['T0', 'oob', ''], ['T1', 'oob', 'fifo 1']], rows: [['sem 0', '1'], ['ready list', 'T1']] };
  const after = { threads: [['T0', 'oob', ''], ['T1', 'in-band', 'fifo 1']], rows: [['sem 0', '0, T1 waiting']] };
  assert.equal(changes_text(after, before, columns, 3), 'Step 3: T1 stage in-band; sem 0: 0, T1 waiting; ready list: none');
  assert.deepEqual([changes_text(before, before, columns, 4), changes_text(before, before, columns, 0)], ['Step 4: nothing changed', 'At the start']);
  const rows = [...Array(9).keys()].map(n => [`sem ${n}`, '5']);
  assert.equal(changes_text({ threads: [], rows }, { threads: [], rows: [] }, columns, 2), 'Step 2: 9 changes');
});
