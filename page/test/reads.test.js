// node --test test/: what the program printed, read.
import assert from 'node:assert/strict';
import test from 'node:test';
import { read_calls, read_found, read_notices, read_refused, read_report, read_trace, why_of } from '../js/reads.js';

test('a trace has entries, plays and other lines', () => {
  const it = read_trace('board threads=1\n1 T0 put sem=0 -> done\n  line 5 oob count 1 none\n- T0 now -> HistoryFull\n'
    + '2 T0 give -> done | core: free\nclose -> done\n1 T0 put sem=0 -> done\n');
  assert.deepEqual(it.map(line => [line.kind, line.number]),
    [['board', 0], ['entry', 1], ['play', 1], ['entry', 2], ['entry', 2], ['board', 0], ['board', 0]]);
  const { who, call, keys, answer } = it[1];
  assert.deepEqual([who, call, keys, answer, it[4].lock], ['T0', 'put', 'sem=0', 'done', 'core: free']);
});
/** A line of `check --json`. @param {any} it */
const notice = it => JSON.stringify({ file: 'scenario.toml', kind: 'fault', line: null, byte: null, step: null, says: 'x', ...it });
test('what is found has its place, in characters, or that of its step', () => {
  const text = '# é\n[board]\nü = 1\n[[step]]\ndo = "x"\n', steps = [{ from: 3, to: 4 }];
  const told = read_notices([{ line: 3, byte: 1 }, { line: 1, byte: 5 }, { kind: 'warning', step: 1 }, { kind: 'warning' },
    { kind: 'unexpected', line: 5, step: 1 }, { file: 'callbacks.toml', kind: 'unread', says: 'no file' }].map(notice).join('\n'), text, steps);
  assert.deepEqual(told.map(it => [it.fault, it.line, it.column, it.where]), [
    [true, 2, 0, 'line 3'], [true, 0, 3, 'line 1'], [false, 3, 0, 'step 1'], [false, undefined, 0, ''],
    [true, 4, 0, 'line 5'], [true, undefined, 0, 'in the callbacks']]);
});
test('a hole is no fault of the one who fills it', () => {
  const [told] = read_notices(notice({ line: 2, byte: 6, says: 'there is no call "____"' }), '[[step]]\ndo = "____"\n', []);
  assert.deepEqual([told.says, told.where], ['a hole (____) to fill', 'line 2']);
});
test('what is found in callbacks has its place there', () => {
  const told = read_notices(notice({ file: 'callbacks.toml', line: 2, byte: 8, says: 'no key' }), '', [], '# a\ndo = "é" x\n');
  assert.deepEqual(told, [{ fault: true, bank: true, line: 1, column: 7, says: 'no key', where: 'callbacks, line 2' }]);
});
test('why a part refuses a text has a place, or none', () => {
  const told = read_refused('scenario.toml:2:2: no key "b"\nlab: scenario.toml: bad board\n', 'a\nüb\n');
  assert.deepEqual(told.map(it => [it.line, it.column, it.says]), [[1, 1, 'no key "b"'], [undefined, 0, 'bad board']]);
});
test('why a part refuses a text is one line, without the way to all faults', () => {
  const behind = 'scenario.toml:3:1: no key "b"\nlab check scenario.toml tells every fault\n';
  assert.equal(why_of('scenario.toml: bad step 1\n' + behind), 'bad step 1');
  assert.equal(why_of('lab: 9 moments\nscenario.toml: line 4: never is a list\n'), 'line 4: never is a list');
  assert.equal(why_of('scenario.toml:1:8: put has no key "c"\n'), 'put has no key "c"');
  assert.equal(read_refused('scenario.toml: bad board\n' + behind, '').length, 2);
  assert.equal(why_of(''), '');
});
test('outcomes have their notes and their scenario', () => {
  const it = read_report('# 2 orders, 1 outcome\n# outcome 1: 2 orders\n# stuck: T1 waits for sem 1\n# T1 -> begun\n'
    + '# sem 0: -1\n# order: T1\nlimit = 1\n\n[board]\nthreads = 1\n# cut off: there are longer orders\n');
  assert.equal(it.orders, '2');
  const [o] = it.outcomes;
  assert.deepEqual([o.number, o.count, o.stuck, o.answers, o.ends, o.order, o.text], ['1', '2', ['T1 waits for sem 1'],
    ['T1 -> begun'], ['sem 0: -1'], 'T1', 'limit = 1\n\n[board]\nthreads = 1\n']);
});
test('outcomes of atomic steps have no scenario', () => {
  const { outcomes } = read_report('# 18 orders, 5 outcomes, 35 moments\n# outcome 1: 6 orders\n# T0 -> pass -> done\n# T1 -> Again -> NotOwner\n'
    + '# stax 0: inband, held by 0\n# order: T0 look, T0 exchange, T1 look, T0 leave, T1 refused\n# outcome 2: 12 orders\n# order: T1 look\n');
  assert.deepEqual(outcomes.map(o => [o.number, o.count, o.ends, o.order, o.text]), [
    ['1', '6', ['stax 0: inband, held by 0'], 'T0 look, T0 exchange, T1 look, T0 leave, T1 refused', ''], ['2', '12', [], 'T1 look', '']]);
});
test('questions about moments have what was found, and the order that leads there', () => {
  const scenario = 'limit = 1\n\n[board]\nthreads = 1\n';
  const out = '# 2 orders, 1 outcome, 4 moments\n# warning: T1 has no finish after its last wait\n'
    + `# state 1: never_state: T1 picked and sem 0 count = 2: at a moment\n# order: T1 T2\n${scenario}`
    + '# state 2: sometimes: T1 ready: at no moment\n# state 3: always: not T1 waits: at each moment\n'
    + `# outcome 1: 2 orders\n# T1 -> done\n# order: T1 T2\n${scenario}`;
  const it = read_report(out);
  assert.deepEqual(it.doubts, ['T1 has no finish after its last wait']);
  assert.deepEqual(it.states.map(s => [s.number, s.key, s.asks, s.found, s.order, s.text]), [
    ['1', 'never_state', 'T1 picked and sem 0 count = 2', 'at a moment', 'T1 T2', scenario],
    ['2', 'sometimes', 'T1 ready', 'at no moment', '', ''], ['3', 'always', 'not T1 waits', 'at each moment', '', '']]);
  assert.deepEqual(it.outcomes.map(o => [o.number, o.text]), [['1', scenario]]);
});
test('JSON says of each outcome and of each question whether it is against what is asked', () => {
  const outcome = (told, against) => ({ orders: 1, against, told, order: ['T1', 'T2'] });
  const it = read_found(JSON.stringify({ orders: 3, moments: 4, steps: 2, whole: false, outcomes_asked: 1,
    states: [{ never_state: 'T1 ready', holds: false, order: [] }, { sometimes: 'T1 ready', holds: null, order: null }, { always: 'T1 ready', holds: true, order: null }],
    outcomes: [outcome(['stuck: T1 waits for sem 1', 'T1 waits for sem 0', 'T1 -> begun', 'sem 0: -1'], true), outcome([], true), outcome([], false)] })
    .replace('"orders":3', '"orders":12345678901234567890'));
  assert.deepEqual([it.orders, it.whole, it.outcomes_asked], ['12345678901234567890', false, 1]);
  assert.deepEqual(it.outcomes.map(o => [o.number, o.count, o.against]), [['1', '1', true], ['2', '1', true], ['3', '1', false]]);
  const [o] = it.outcomes;
  assert.deepEqual([o.stuck, o.answers, o.ends, o.order], [['T1 waits for sem 1'], ['T1 -> begun'], ['T1 waits for sem 0', 'sem 0: -1'], 'T1 T2']);
  assert.deepEqual(it.states.map(s => [s.number, s.key, s.asks, s.found, s.against, s.has_order]), [
    ['1', 'never_state', 'T1 ready', 'at a moment', true, true], ['2', 'sometimes', 'T1 ready', 'not known: cut off', false, false],
    ['3', 'always', 'T1 ready', 'at each moment', false, false]]);
});
test('the list of calls has keys, values and answers', () => {
  const key = (key, of) => ({ key, default: null, kind: 'number', most: 65535, values: [], ...of });
  const { calls, refusals } = read_calls([{ word: 'stall', keys: [key('stage', { kind: 'stage', values: ['inband', 'oob'] })], answers: ['done'] },
    { word: 'finish', keys: [key('keep', { default: false, kind: 'truth', values: [true, false] })], answers: ['done', 'bits N', 'bytes HEX'] },
    { refusals: ['Unknown'] }].map(it => JSON.stringify(it)).join('\n') + '\n');
  assert.deepEqual(calls.get('stall')?.keys.get('stage'), { kind: 'stage', most: 65535, must: true, values: ['"inband"', '"oob"'] });
  assert.deepEqual([calls.get('finish')?.keys.get('keep')?.usual, calls.get('stall')?.keys.get('stage')?.usual], ['false', undefined]);
  assert.deepEqual(calls.get('finish')?.keys.get('keep')?.values, ['true', 'false']);
  assert.equal(calls.get('finish')?.keys.get('keep')?.must, false);
  assert.deepEqual(calls.get('finish')?.answers, ['done', 'bits 0', 'bytes 00']);
  assert.deepEqual(refusals, ['Unknown']);
});
