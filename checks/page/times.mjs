// How long the page takes, against its aims. The machine may be busy, so each is measured some times; the least counts.
import assert from 'node:assert/strict';
import { spawnSync } from 'node:child_process';
import fs from 'node:fs';
import os from 'node:os';
import path from 'node:path';
import { answers } from './runs.mjs';

const steps = (count, step) => `limit = 50000\n[board]\nthreads = 1\nsems = [0]\n${step.repeat(count)}`;
const PUT = '[[step]]\ndo = "put"\nwho = 0\nsem = 0\n';
/** 1 MiB of puts, the longest text that is read. */
export const puts = steps(Math.floor((1048576 - 60) / PUT.length), PUT);
const least = async (times, measure) => {
  const all = [];
  for (let i = 0; i < times; i++) all.push(await measure());
  return Math.min(...all);
};
/** In the page: from an edit of a text to what it shows, checked, played, drawn, with the state of a step. */
const EDIT = `async text => {
  const box = document.getElementById('text'), turn = Number(document.body.dataset.done || 0);
  box.value = text;
  const begun = performance.now();
  box.dispatchEvent(new Event('input'));
  while (!(Number(document.body.dataset.done) > turn)) await new Promise(done => setTimeout(done, 1));
  document.getElementById('drawing').getBoundingClientRect();
  return performance.now() - begun; }`;

async function first(page) {
  return least(4, async () => {
    await page.open();
    return Number(await page.browser.evaluate('document.body.dataset.at'));
  });
}
/** An edit that changes the first step too, so that the whole trace and picture are others each time. */
async function edit(page, text) {
  let count = 0;
  return least(8, () => {
    const first = text.replace('[[step]]', `[[step]]\ndo = "tick"\nwho = 0\ndelta = ${++count}\n[[step]]`);
    return page.browser.evaluate(`(${EDIT})(${JSON.stringify(first)})`);
  });
}
async function against_native(page, lab) {
  const it = { words: ['play', 'big.toml'], files: { 'big.toml': Buffer.from(puts).toString('base64') } };
  const here = await least(4, async () => {
    const [answer] = await answers(page.browser, [it]);
    assert.equal(answer.status, 0);
    return answer.ms;
  });
  if (!lab) return [here, null];
  const file = path.join(fs.mkdtempSync(path.join(os.tmpdir(), 'page-times-')), 'big.toml');
  fs.writeFileSync(file, puts);
  const there = await least(4, () => {
    const begun = performance.now(), ran = spawnSync(lab, ['play', file], { maxBuffer: 1 << 28 });
    assert.equal(ran.status, 0);
    return performance.now() - begun;
  });
  fs.rmSync(path.dirname(file), { recursive: true });
  return [here, there];
}
/** Each aim with what was measured; whether an aim was missed is told, and counts for nothing on a busy machine. */
export async function times(page, file, lab) {
  const size = fs.statSync(file).size, told = [];
  const tell = (what, is, most, unit) => told.push(`${what} ${is.toFixed(is < 10 ? 2 : 0)} ${unit} `
    + `(aim ${most})${is <= most ? '' : ': MISSED'}`);
  tell('one file', size / 1e6, 2.2, 'MB');
  assert.ok(size <= 2.2e6);
  tell('first trace and picture', await first(page), 1500, 'ms');
  await page.lesson('1. An interrupt');
  tell('an edit checked, played and drawn', await edit(page, await page.value('text')), 100, 'ms');
  const [here, there] = await against_native(page, lab);
  if (there) tell('1 MiB of puts, times the native program', here / there, 4, `(${here.toFixed(0)} ms)`);
  else told.push(`1 MiB of puts ${here.toFixed(0)} ms`);
  tell('2,000 marks checked, played and drawn', await edit(page, steps(1999, PUT)), 300, 'ms');
  return told.join('; ');
}
