// node --test test/: what the console keeps of calls that were typed and taken back.
import assert from 'node:assert/strict';
import test from 'node:test';
import { calls_left, rest_of } from '../js/console.js';

test('calls that were taken back are no longer there', () => {
  assert.equal(calls_left([]), 0);
  assert.equal(calls_left(['3 T0 put sem=0 -> done\n', '! 3: there is no such call\n', '4 T0 peek sem=0 -> count 1\n']), 2);
  assert.equal(calls_left(['3 T0 put sem=0 -> done\n', 'undone: T0 put sem=0\n', 'undone: T1 now\n']), 0);
});
test('what goes on from a scenario, or from another one', () => {
  assert.equal(rest_of('limit = 1\n[[step]]\na\n[[step]]\nb\n', 'limit = 1\n[[step]]\na\n'), '[[step]]\nb');
  assert.equal(rest_of('a\n', 'a\n'), '');
  assert.equal(rest_of('a\nc\n', 'a\nb\n'), null);
});
