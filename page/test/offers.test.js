// node --test test/: what is offered while one types, and how an exercise is judged.
import assert from 'node:assert/strict';
import test from 'node:test';
import { offer_calls, offered, offered_line } from '../js/complete.js';
import { lines_there, same_trace } from '../js/exercise.js';
import { read_calls } from '../js/reads.js';

offer_calls(read_calls('{"word": "put", "keys": [{"key": "sem", "default": null, "kind": "number", "most": 65535, "values": []}], '
  + '"answers": ["done"]}\n{"word": "stall", "keys": [{"key": "stage", "default": null, "kind": "stage", "most": null, '
  + '"values": ["inband", "oob"]}], "answers": ["done"]}\n{"refusals": ["Unknown", "Busy"]}\n'));
/** What is offered at the bar of a text. */
const at = (text, kind = 'play') => offered(text.replace('|', ''), text.indexOf('|'), kind);

test('words, keys and values of a step', () => {
  assert.deepEqual(at('[[step]]\ndo = |', 'orders'), { size: 0, words: ['"put"', '"stall"'] });
  assert.deepEqual(at('[[step]]\ndo = "pu|', 'orders'), { size: 3, words: ['"put"', '"stall"'] });
  assert.deepEqual(at('[[step]]\ndo = "put"\n|')?.words, ['who = ', 'sem = ', 'expect = ']);
  assert.deepEqual(at('[[step]]\ndo = "put"\n|', 'orders')?.words, ['who = ', 'sem = ']);
  assert.deepEqual(at('[[step]]\ndo = "put"\nwho = 0\ns|\n[[step]]\nsem = 0\n')?.words, ['sem = ', 'expect = ']);
  assert.deepEqual(at('[[step]]\ndo = "stall"\nstage = |')?.words, ['"inband"', '"oob"']);
  assert.deepEqual(at('step = [\n  { do = "stall", who = 0, s|')?.words, ['stage = ', 'expect = ']);
});
test('words, keys and passes of callers', () => {
  assert.ok(at('[[step]]\ndo = "|')?.words.includes('"try_lock_stax"'));
  const step = '[[step]]\ndo = "begin_lock_mutex"\nwho = 0\n', passes = '{ as = "a" }, { as = "b" }, { as = "a" }';
  assert.deepEqual(at(step + '|', 'callers')?.words, ['mutex = ', 'until = ', 'as = ']);
  assert.deepEqual(at(`step = [\n  ${passes},\n  { do = "unlock_stax", pass = "|`)?.words, ['"a"', '"b"']);
  assert.ok(at('[board]\nthreads = 1\n|', 'callers')?.words.includes('staxes = '));
});
test('values of a board and of what is asked', () => {
  assert.deepEqual(at('[board]\nmutexes = [|')?.words[0], '"normal"');
  assert.deepEqual(at('[board]\nmutexes = ["normal", "c|'),
    { size: 2, words: ['"normal"', '"recursive"', '"ceiling 50"'] });
  assert.equal(at('[board]\nsems = [|'), null);
  assert.deepEqual(at('[ask]\nalways_ends = |', 'orders')?.words, ['true']);
  assert.equal(at('[ask]\nnever = |', 'orders'), null);
});
test('tables, the board and the callbacks', () => {
  assert.deepEqual(at('[|')?.words, ['[board]', '[[step]]']);
  assert.deepEqual(at('[[se|', 'orders')?.words, ['[ask]', '[[setup]]', '[[step]]', '[board]']);
  assert.ok(at('[board]\nthreads = 1\n|')?.words.includes('sems = '));
  assert.ok(!at('[board]\nthreads = 1\n|')?.words.includes('threads = '));
  assert.equal(at('# a comment |'), null);
  assert.equal(at('[|', 'tasks'), null);
  assert.equal(at('[[task]]\ndoes = ["run 1ms"]\n[ask]\n|', 'tasks'), null);
  assert.deepEqual(at('[|', 'bank')?.words, ['[[callback]]']);
  assert.deepEqual(at('|', 'bank')?.words, ['[[callback]]']);
  assert.deepEqual(at('[[callback]]\na|', 'bank')?.words, ['accepts = ', 'do = ']);
  assert.ok(at('[[callback]]\ndo = [{ st|', 'bank')?.words.includes('stop_timer = '));
});
test('lines of a text of lines', () => {
  assert.deepEqual(at('board threads=2\n|'), { size: 0, words: ['T0 ', 'T1 ', 'board ', 'limit ', 'setup '] });
  assert.deepEqual(at('board threads=2\nsetup T|')?.words, ['T0 ', 'T1 ']);
  assert.deepEqual(at('board threads=2\n3 T1 p|'), { size: 1, words: ['put ', 'stall '] });
  assert.deepEqual(at('board threads=2\nsetup T1 put s|')?.words, ['sem=']);
  assert.deepEqual(at('board threads=2\nT1 stall stage=o|'), { size: 1, words: ['inband', 'oob'] });
  assert.ok(at('board threads=2 s|')?.words.includes('sems=') && !at('board threads=2 s|')?.words.includes('threads='));
  assert.equal(at('board threads=2\nT0 put # |'), null);
  assert.ok(at('b|')?.words.includes('board threads='));
});
test('numbers of what the board has, and answers that can be expected', () => {
  const board = '[board]\nthreads = 2\nsems = [0, 4]\nxbufs = [[8, 8], [1, 1]]\n[[step]]\n';
  assert.deepEqual(at(board + 'do = "put"\nsem = |'), { size: 0, words: ['0', '1'] });
  assert.deepEqual(at(board + 'do = "put"\nexpect = |')?.words, ['"done"', '"Unknown"', '"Busy"']);
  assert.deepEqual(at('board threads=2 sems=[0, 0, 0]\nT1 put sem=|'), { size: 0, words: ['0', '1', '2'] });
  assert.deepEqual(at('board threads=2 sems=[0]\nT1 put sem=0 -> U|'), { size: 1, words: ['done', 'Unknown', 'Busy'] });
  assert.deepEqual(offered_line('T0 put sem=', 11, board)?.words, ['0', '1']);
});
test('lines of the console', () => {
  assert.ok(offered_line('T0', 2)?.words.includes('T0 '));
  assert.deepEqual(offered_line('T0 p', 4), { size: 1, words: ['put ', 'stall '] });
  assert.deepEqual(offered_line('T0 put ', 7), { size: 0, words: ['sem='] });
  assert.deepEqual(offered_line('T0 stall stage=', 15), { size: 0, words: ['inband', 'oob'] });
});
test('an exercise is judged by its lines or by its trace', () => {
  assert.equal(lines_there(['a', 'b', 'c'], ['a', 'c'])[0], 'good');
  assert.deepEqual(lines_there(['a', 'b'], ['b', 'a']),
    ['bad', 'Not yet: the trace has 1 of the 2 lines, in order.']);
  assert.equal(same_trace(['a', 'b'], ['a', 'b'])[0], 'good');
  assert.match(same_trace(['a'], ['a', 'b'])[1], /1 more lines are missing/);
  assert.match(same_trace(['a', 'x'], ['a', 'b'])[1], /line 1 of the trace differs/);
});
