// node --test test/: how answers to exercises are judged, by the program's module.
import assert from 'node:assert/strict';
import test from 'node:test';
import { judged } from '../js/exercise.js';
import { ANSWERS, EXERCISES } from './answers.mjs';
import { begin, skip } from './program.mjs';

test('each stored answer is judged as it has to be', { skip }, async () => {
  begin();
  const wrong = [];
  for (const { exercise, what, text, bank, wanted } of ANSWERS) {
    const [how, says] = await judged(exercise, text, bank);
    if (how !== wanted) wrong.push(`${what}: ${wanted} is wanted, ${how} it is: ${says}`);
  }
  assert.deepEqual(wrong, []);
  assert.ok(ANSWERS.length > 50);
});
