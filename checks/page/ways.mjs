// A user's ways through the page, by clicks and keys, each with what must be there after it.
import assert from 'node:assert/strict';
import { spawnSync } from 'node:child_process';
import fs from 'node:fs';
import os from 'node:os';
import path from 'node:path';
import { qr_svg } from '../../page/js/qr.js';
import { code_of } from '../../page/js/share.js';
import { ANSWERS, EXERCISES } from '../../page/test/answers.mjs';
import { sleep } from './browsers.mjs';
import { dice } from './runs.mjs';

/** Words for what is on the page. */
export class Page {
  constructor(browser, url, stored, shots, top = '.') {
    Object.assign(this, { browser, url, stored, shots, top });
  }
  async open(url = this.url) {
    await this.browser.go('about:blank');
    await this.browser.go(url);
    await this.browser.until('document.body && document.body.dataset.ready');
  }
  see(id) { return this.browser.evaluate(`document.getElementById(${JSON.stringify(id)}).textContent`); }
  value(id) { return this.browser.evaluate(`document.getElementById(${JSON.stringify(id)}).value`); }
  at() { return this.browser.evaluate(`document.activeElement.id || document.activeElement.tagName`); }
  async turn() {
    await this.browser.until('!document.body.dataset.waits', 90000);
    return this.browser.evaluate('Number(document.body.dataset.done || 0)');
  }
  /** Waits until a text was checked, played and drawn after a turn. */
  async played(after, ms = 30000) {
    await this.browser.until(`Number(document.body.dataset.done || 0) > ${after} && !document.body.dataset.waits`, ms);
  }
  /** Puts a text in, as pasting it does. */
  async put(text, id = 'text', ms = 30000) {
    const turn = await this.turn();
    await this.browser.evaluate(`(() => { const it = document.getElementById('${id}');
      it.value = ${JSON.stringify(text)}; it.dispatchEvent(new Event('input')); })()`);
    await this.played(turn, ms);
  }
  /** Opens a lesson by a part of its title, or by the whole, and its text or another side of it. */
  async lesson(title, side = 'text') {
    const turn = await this.turn(), listed = 'document.body.classList.contains("listed")';
    if (!await this.browser.evaluate(listed)) await this.browser.click('#lessons-button');
    await this.browser.evaluate(`(() => { const all = [...document.querySelectorAll('#list button')];
      const it = all.find(it => it.textContent === ${JSON.stringify(title)})
        || all.find(it => it.textContent.includes(${JSON.stringify(title)}));
      it.id = 'wanted'; })()`);
    await this.browser.click('#wanted');
    await this.browser.evaluate(`document.getElementById('wanted').removeAttribute('id')`);
    await this.played(turn);
    await this.browser.click(`#${side}-tab`);
  }
  async tab(name) { await this.browser.click(`#${name}-tab`); }
  /** Which way time goes; the panes have their room two frames later, and the picture its size. */
  async way(to) {
    await this.browser.evaluate(`(() => { const it = document.getElementById('way');
      it.value = '${to}'; it.dispatchEvent(new Event('change'));
      return new Promise(done => requestAnimationFrame(() => requestAnimationFrame(() => done()))); })()`);
  }
  async step(wanted) {
    await this.browser.until(`document.getElementById('at').textContent.startsWith('step ${wanted} ')`);
  }
  async shot(name) {
    await sleep(250);
    if (this.shots) await this.browser.shot(`${this.shots}/${this.browser.name}_${name}.png`);
  }
}

/** The page begins with what it is; at the end of each lesson is the way on. */
async function opens(page) {
  const { browser } = page;
  assert.equal(await page.see('name'), 'Start here');
  assert.match(await page.see('lines'), /2 T1 begin_get sem=0 until=none -> begun/);
  await browser.click('#story .at[data-step="2"]');
  await page.step(2);
  await browser.until(`document.querySelector('#state .blocked')`);
  await page.shot('start');
  const turn = await page.turn();
  await browser.click('#next');
  await page.played(turn);
  assert.match(await page.see('name'), /^1\. An interrupt through a stalled/);
  assert.equal(await page.see('kind'), 'scenario');
  assert.match(await page.see('faults'), /^warning step 6 .*pending inband already/);
  assert.equal(await browser.evaluate(`document.querySelectorAll('#entries svg title').length`), 13);
  const unproved = await browser.evaluate(`Boolean(document.getElementById('unproved'))`);
  const foot = await browser.evaluate(`document.querySelector('footer').textContent`);
  assert.equal(unproved, foot.includes('UNPROVED'));
  assert.match(foot, /SHA-256 of its code: [0-9a-f]{64}/);
  assert.match(foot, /logic=/);
  assert.equal(await browser.evaluate(`document.getElementById('side-story').hidden`), false);
  await browser.click('#story .at[data-step="5"]');
  await page.step(5);
  await page.shot('lesson');
}
async function walks(page) {
  const { browser } = page;
  await browser.click('#text-tab');
  await browser.click('#bar [data-walk="first"]');
  await browser.click('#bar [data-walk="1"]');
  await page.step(1);
  await browser.key('ArrowRight');
  await page.step(2);
  await browser.evaluate(`document.getElementById('lines').focus()`);
  for (let i = 0; i < 3; i++) await browser.key('ArrowDown');
  await page.step(5);
  await browser.until(`document.getElementById('state').textContent.includes('After step 5')`);
  assert.match(await page.see('state-says'), /^Step 5: /);
  assert.equal(await browser.evaluate(`document.querySelectorAll('#lines [aria-selected=true]').length`), 2);
  const step = `[...document.querySelectorAll('#under .step')].map(it => it.textContent).join()`;
  assert.match(await browser.evaluate(step), /do = "arrive"/);
  await browser.key('End');
  await page.step(9);
  await browser.key('Home');
  await page.step(0);
  await browser.click('#entries [data-step="3"] svg');
  await page.step(3);
  await browser.until(`document.querySelector('#state .changed')`);
  await browser.click('#lines [data-step="8"]');
  await page.step(8);
  await browser.evaluate(`document.getElementById('slider').focus()`);
  await browser.key('ArrowLeft');
  await page.step(7);
  await browser.evaluate(`document.getElementById('text').focus()`);
  await browser.key('ArrowDown', 'Alt');
  await page.step(8);
  await browser.key('ArrowRight');
  await page.step(8);
}
/** Time goes down where a trace is short, each line beside its lanes; sideways where it is long, or that is chosen. */
async function goes(page) {
  const { browser } = page, count = selector => browser.evaluate(`document.querySelectorAll('${selector}').length`);
  const rows = `[...document.querySelectorAll('#entries [data-step]')].map(it => {
    const svg = it.querySelector('svg').getBoundingClientRect(), box = it.getBoundingClientRect();
    return [it.textContent.endsWith(it.querySelector('title').textContent.trim()), box.top - svg.top,
      box.height - svg.height].join(); })`;
  await page.lesson('4. A callback that wakes');
  await browser.click('#lines [data-step="6"]');
  assert.deepEqual(new Set(await browser.evaluate(rows)), new Set(['true,0,0']));
  assert.equal(await page.see('names'), 'T0T1sem 0oob 8oobinb 3');
  await page.way('across');
  await browser.until(`document.querySelectorAll('#drawing .here').length === 2`);
  assert.equal(await count('#entries svg'), 0);
  await browser.click('#drawing .mark[data-step="3"]');
  await page.step(3);
  await page.shot('across');
  await page.open();
  assert.equal(await page.value('way'), 'across');
  await browser.until(`document.querySelectorAll('#drawing .mark').length`);
  await page.way('');
  await browser.until(`document.querySelectorAll('#entries svg').length`);
  const put = '[[step]]\ndo = "put"\nwho = 0\nsem = 0\n', board = '[board]\nthreads = 1\nsems = [0]\n';
  await page.put(board + put.repeat(60));
  assert.deepEqual([await count('#entries svg'), await count('#drawing .mark')], [60, 0]);
  await page.put(board + put.repeat(61));
  assert.deepEqual([await count('#entries svg'), await count('#drawing .mark')], [0, 61]);
  await page.way('down');
  await browser.until(`document.querySelectorAll('#entries svg').length`);
  await browser.click('[data-walk="last"]');
  await page.step(61);
  await browser.until(`document.querySelector('#entries [data-step="61"] title')`);
  await page.way('');
  await browser.click('#back-to');
}
/** In the page: clicks each mark of a picture, then each line of its trace, and reports what chose not the other. */
const CHOOSE = `(async () => {
  const turn = () => new Promise(done => requestAnimationFrame(() => requestAnimationFrame(done)));
  const says = it => it.textContent.replace(/\\s+/g, ' ').trim(), amiss = [];
  const marks = [...document.querySelectorAll('#drawing .mark')].map(it =>
    ({ it, step: it.dataset.step, title: says(it.querySelector('title')) }));
  const chosen = async it => {
    it.dispatchEvent(new MouseEvent('click', { bubbles: true }));
    await turn();
    return [...document.querySelectorAll('#entries [aria-selected=true]')].map(says);
  };
  const same = step => marks.filter(mark => mark.step === step);
  for (const { it, step, title } of marks) {
    const lines = await chosen(it), here = document.querySelectorAll('#drawing .here').length;
    if (!lines.includes(title) || here !== same(step).length) amiss.push([title, here, lines]);
  }
  for (const it of document.querySelectorAll('#entries [data-step]')) {
    const titles = same(it.dataset.step).map(mark => mark.title), lines = await chosen(it);
    if (String(titles) !== String(lines)) amiss.push([titles, lines]);
  }
  return { amiss, marks: marks.length, plays: marks.filter(it => it.title.startsWith('line ')).length };
})()`;
/** A mark chooses its line of the trace, a play's the call too, and a line its marks; also of calls with no entry. */
async function marks(page) {
  const { browser } = page, seen = { marks: 0, plays: 0 }, file = 'crates/test_rows/data/scenarios/full_history.toml';
  const each_chooses = async title => {
    const told = await browser.evaluate(CHOOSE);
    assert.deepEqual(told.amiss, [], title);
    assert.ok(told.marks, title);
    for (const key in seen) seen[key] += told[key];
  };
  await page.way('across');
  for (const title of ['1. An interrupt', '2. A stalled', '3. A callback', '4. A callback', 'Racing callers 1']) {
    await page.lesson(title);
    await each_chooses(title);
  }
  await page.lesson('1. An interrupt');
  await page.put(fs.readFileSync(path.join(page.top, file), 'utf8'));
  assert.match(await page.see('lines'), /- T\d .* -> HistoryFull/);
  await each_chooses(file);
  await browser.click('#back-to');
  await page.way('');
  return `${seen.marks} marks, ${seen.plays} of them plays, and their lines choose one another`;
}
/** The table has each thread after each step, and how its wait is. */
async function tables(page) {
  const { browser } = page;
  const row = (step, name) => browser.evaluate(`[...document.querySelectorAll('#state tbody tr')]
    .find(it => it.firstElementChild.textContent.startsWith('${name}'))?.innerText.replace(/\\s+/g, ' ')`);
  const at = async step => {
    await browser.click(`#lines [data-step="${step}"]`);
    await browser.until(`document.getElementById('state').textContent.includes('After step ${step};')`);
  };
  await page.lesson('4. A callback that wakes');
  await at(5);
  assert.match(await row(5, 'T1'), /^T1 oob fifo 50 f50 blocked .*sem 0/);
  await at(6);
  assert.match(await row(6, 'T1'), /^T1 oob fifo 50 f50 picked .*served: sem 0/);
  assert.match(await row(6, 'sem 0'), /^sem 0 0/);
  assert.equal(await page.see('plays'), 'line 8 oob: callback 1, do = [{ post_sem = 0 }]');
  await at(9);
  assert.match(await row(9, 'T1'), /^T1 oob fifo 50 f50 picked (\(changed\))?$/);
  await page.lesson('14. Inversion ended');
  const count = await browser.evaluate(`document.querySelectorAll('#lines .entry').length`);
  for (let step = 1; step <= count; step++) {
    await at(step);
    const names = await browser.evaluate(`[...document.querySelectorAll('#state table:first-child tbody th')]
      .map(it => it.textContent.replace(' (changed)', '')).join()`);
    assert.equal(names, 'T0,T1,T2,T3', `after step ${step}`);
  }
  await at(3);
  assert.match(await row(3, 'T1'), /f30 ↑/);
  assert.match(await row(3, 'mutex 0'), /owner T1, T\d waiting/);
  assert.match(await row(3, 'ready list'), /^ready list T1\b/);
}
async function edits(page) {
  const { browser } = page;
  await page.lesson('1. An interrupt');
  const own = await page.value('text');
  await browser.evaluate(`document.getElementById('text').setSelectionRange(0, 0)`);
  await browser.evaluate(`document.getElementById('text').focus()`);
  let turn = await page.turn();
  await browser.type('xx');
  await page.played(turn);
  assert.match(await page.see('faults'), /fault line 1/);
  assert.equal(await browser.evaluate(`document.querySelectorAll('#under u').length`), 1);
  assert.match(await page.see('kept'), /^saved$/);
  turn = await page.turn();
  await browser.undo();
  if (await page.value('text') !== own) await browser.undo();
  await page.played(turn);
  assert.equal(await page.value('text'), own);
  await browser.key('Tab');
  assert.notEqual(await page.at(), 'text');
  await page.put(own.replace('do = "unstall"', 'do = "unstal"').replace('who = 0', 'who = "T0"'));
  assert.match(await page.see('faults'), /did you mean "unstall"/);
  assert.match(await page.see('stale'), /^It cannot be played: bad step 1/);
  assert.match(await page.see('at'), /of 9$/);
  await page.shot('faults');
  turn = await page.turn();
  await browser.click('.fix');
  await page.played(turn);
  assert.doesNotMatch(await page.see('faults'), /unstal"/);
  turn = await page.turn();
  await browser.click('#back-to');
  await page.played(turn);
  assert.equal(await page.value('text'), own);
  await browser.click('#find');
  await browser.type('arrive');
  await browser.key('Enter');
  assert.match(await page.see('found'), /^\d of 5$/);
}
async function completes(page) {
  const { browser } = page;
  await page.put('[board]\nthreads = 2\nsems = [0]\n\n');
  await browser.evaluate(`(() => { const it = document.getElementById('text'); it.focus();
    it.setSelectionRange(it.value.length, it.value.length); })()`);
  await browser.type('[[s');
  assert.match(await page.see('offers'), /\[\[step\]\]/);
  await browser.key('Enter');
  await browser.key('Enter');
  await browser.type('do = "be');
  assert.match(await page.see('offers'), /"begin_get"/);
  await page.shot('completion');
  await browser.key('Enter');
  assert.match(await page.value('text'), /do = "begin_get"$/);
  await browser.key('Enter');
  await browser.type('who = 0');
  await browser.key('Enter');
  await browser.type('s');
  assert.match(await page.see('offers'), /^sem = $/);
  await browser.key('Enter');
  await browser.type('0');
  await browser.key('Enter');
  await browser.key(' ', 'Control');
  assert.match(await page.see('offers'), /until = /);
  await browser.key('Escape');
  assert.equal(await browser.evaluate(`document.getElementById('offers').hidden`), true);
  await browser.until(`document.getElementById('lines').textContent.includes('begin_get sem=0 until=none')`);
  await page.put('[board]\nthreads = 2\nstaxes = [1]\n[[step]]\ndo = "try_lock_stax"\nwho = 0\nstax = 0\nas = "a"\n'
    + '[[step]]\ndo = "unlock_stax"\nwho = 0\n');
  await browser.evaluate(`(() => { const it = document.getElementById('text'); it.focus();
    it.setSelectionRange(it.value.length, it.value.length); })()`);
  await browser.type('pa');
  assert.match(await page.see('offers'), /^pass = $/);
  await browser.key('Enter');
  await browser.key(' ', 'Control');
  assert.match(await page.see('offers'), /^"a"$/);
  await browser.key('Enter');
  await browser.until(`document.getElementById('lines').textContent.includes('unlock_stax pass=a')`);
}
/** A scenario goes to lines and back; lines are completed, their faults have places; a trace is a text. */
async function lines(page) {
  const { browser } = page;
  const form = async wanted => {
    const turn = await page.turn();
    await browser.click('#form');
    await page.played(turn);
    assert.equal(await page.see('form'), wanted);
  };
  await page.lesson('4. A callback that wakes');
  const trace = await page.see('entries');
  assert.equal(await page.see('form'), 'As lines');
  await form('As tables');
  assert.match(await page.value('text'), /^board .*\nT1 attach policy=fifo 50 stage=oob\n/);
  assert.equal(await page.see('entries'), trace);
  await browser.click('#lines [data-step="6"]');
  const step = `[...document.querySelectorAll('#under .step')].map(it => it.textContent).join()`;
  await browser.until(`${step} === 'T0 arrive line=8'`);
  await browser.evaluate(`(() => { const it = document.getElementById('text'); it.focus();
    it.setSelectionRange(it.value.length, it.value.length); })()`);
  await browser.type('T1 fin');
  assert.equal(await page.see('offers'), 'finish ');
  await browser.key('Escape');
  await browser.type('sh2');
  await browser.until(`document.getElementById('faults').textContent.startsWith('fault line 12 there is no call "finsh2"')`);
  await browser.click('.fix');
  await browser.until(`document.getElementById('lines').textContent.includes('11 T1 finish keep=false')`);
  await page.tab('console');
  await browser.type('T0 now');
  await browser.key('Escape');
  await browser.key('Enter');
  await browser.until(`document.getElementById('said').textContent.includes('-> number 0')`);
  const turn = await page.turn();
  await browser.click('#to-text');
  await page.played(turn);
  assert.match(await page.value('text'), /\nT1 finish\nT0 now\n$/);
  await form('As lines');
  assert.match(await page.value('text'), /^limit = 1000\n\n\[board\]/);
  await page.put('board threads=1 sems=1 flags=0 xbufs=0 mutexes=0 groups=0 limit=9\n1 T0 put sem=0 -> done\n');
  assert.match(await page.see('lines'), /1 T0 put sem=0 -> done/);
  await page.put('board threads=3 sems=[1]\nsetup T1 attach policy=fifo 10 stage=oob\nT1 pick\nT0 put sem=0\n');
  await browser.until(`document.getElementById('verdict').textContent === 'Nothing is asked. There are 2 orders.'`);
  await page.shot('lines');
  await browser.click('#back-to');
}
async function drives(page) {
  const { browser } = page;
  await page.lesson('Inversion ended by a mutex');
  await page.tab('console');
  assert.equal(await page.at(), 'line');
  for (const line of ['T0 pick', 'T0 putt', 'ps']) {
    await browser.type(line);
    await browser.key('Escape');
    await browser.key('Enter');
    await browser.until(`document.getElementById('said').textContent.includes('> ${line}')`);
  }
  const said = await page.see('said');
  assert.match(said, /15 T0 pick -> thread 2/);
  assert.match(said, /! \d+: .*did you mean "put"/);
  assert.match(said, /T1 oob/);
  await browser.key('ArrowUp');
  await browser.key('ArrowUp');
  assert.equal(await page.value('line'), 'T0 putt');
  await browser.click('#undo');
  await browser.until(`document.getElementById('said').textContent.includes('undone: T0 pick')`);
  assert.equal(await browser.evaluate(`document.getElementById('undo').disabled`), true);
  await browser.evaluate(`document.getElementById('line').value = ''`);
  await browser.evaluate(`document.getElementById('line').focus()`);
  await browser.type('T0 pick');
  await browser.key('Escape');
  await browser.key('Enter');
  await browser.until(`!document.getElementById('undo').disabled`);
  await browser.evaluate(`document.getElementById('line').value = ''`);
  await browser.evaluate(`document.getElementById('line').focus()`);
  await browser.type('T0 set_p');
  assert.match(await page.see('offers'), /set_policy/);
  await page.shot('console');
  await browser.key('Escape');
  const turn = await page.turn();
  await browser.click('#to-text');
  await page.played(turn);
  assert.match(await page.see('at'), /of 15$/);
  const text = await page.value('text');
  assert.match(text, /^# .*[^]*do = "pick"\nwho = 0\n$/);
  await browser.click('#back-to');
}
async function orders(page) {
  const { browser } = page;
  await page.lesson('Two locks');
  await browser.until(`document.getElementById('verdict').textContent.startsWith('No: ')`);
  assert.equal(await browser.evaluate(`document.querySelectorAll('#outcomes tbody tr:not(.picture)').length`), 2);
  assert.match(await page.see('asked'), /always_ends = true/);
  await page.shot('orders');
  await browser.click('#pictures');
  await browser.until(`[...document.querySelectorAll('#outcomes img')].filter(it => it.complete && it.naturalWidth > 200).length === 2`);
  await page.shot('pictures');
  await browser.click('[data-open="1"]');
  await browser.until(`document.getElementById('viewed-title').textContent.startsWith('Outcome 2 (20 orders)')`);
  await browser.until(`document.getElementById('at').textContent.endsWith('of 14')`);
  await page.shot('outcome');
  const turn = await page.turn();
  await browser.click('#viewed-take');
  await page.played(turn);
  assert.equal(await page.see('kind'), 'scenario');
}
/** Orders of atomic steps open too, as their steps; the first of them that contradicts what is asked is marked. */
async function atomic(page) {
  const { browser } = page, steps = name => fs.readFileSync(path.join(page.top, 'examples/orders/steps', `${name}.toml`), 'utf8');
  await page.lesson('Two locks');
  await page.put(steps('stax_2'));
  assert.equal(await page.see('verdict'), 'No: outcome 4 is the first that contradicts what is asked.');
  assert.equal(await page.see('faults'), 'no fault');
  const rows = `[...document.querySelectorAll('#outcomes tbody tr:not(.picture)')].map(it => it.innerText.replace(/\\s+/g, ' '))`;
  const told = await browser.evaluate(rows);
  assert.match(told[3], /^4 ✗.* 2 stax 0: oob, held by 0 T0: Raced, NotOwner T1: pass, done T0 look, T1 look, T1 exchange, T1 leave/);
  assert.equal(told.length, 5);
  await browser.click('[data-open="3"]');
  await page.step(6);
  assert.match(await page.see('lines'), /5 T0 exchange stax=0 -> Raced \| stax 0: free/);
  await browser.click('#lines [data-step="3"]');
  await browser.until(`document.getElementById('state').textContent.includes('stax 0out-of-band, 1 holder')`);
  assert.equal(await browser.evaluate(`document.querySelectorAll('#entries svg title').length`), 6);
  assert.equal(await browser.evaluate(`document.getElementById('viewed-take').hidden`), true);
  await page.shot('atomic');
  await page.put(steps('set_up_put'));
  assert.match(await page.see('verdict'), /^The orders were not explored: bad step 1: what is set up is attach/);
  assert.doesNotMatch(await page.see('faults'), /staxes/);
  await browser.click('#back-to');
  await browser.until(`document.getElementById('verdict').textContent.startsWith('No: ')`);
}
/** What is asked of moments is told beside the outcomes, and the order that leads to one opens at its last step. */
async function moments(page) {
  const { browser } = page, asked = name => fs.readFileSync(path.join(page.top, 'examples/orders/asked', `${name}.toml`), 'utf8');
  await page.lesson('Two locks');
  await page.put(asked('inversion_by_a_semaphore'));
  assert.equal(await page.see('verdict'), 'No: state 1 contradicts what is asked.');
  const rows = await browser.evaluate(`[...document.querySelectorAll('#moments tbody tr')].map(it => it.innerText.replace(/\\s+/g, ' '))`);
  assert.match(rows[0], /^1 ✗.* never_state T2 picked and T3 waits for sem 0 at a moment T1 T2 T3 T3$/);
  assert.equal(rows.length, 3);
  await page.shot('moments');
  await browser.click('#moments [data-open="0"]');
  await browser.until(`document.getElementById('viewed-title').textContent.startsWith('State 1 (T2 picked')`);
  await browser.until(`/^step (\\d+) of \\1$/.test(document.getElementById('at').textContent)`);
  await browser.until(`document.getElementById('state').textContent.includes('sem 0')`);
  const made = [['begin_get', 1, 0], ['begin_get', 1, 1], ['begin_get', 2, 0], ['put', 2, 1]];
  await page.put(`[board]\nthreads = 3\nsems = [1, 1]\n[ask]\nends_waits = true\n${[1, 2].map(who =>
    `[[setup]]\ndo = "attach"\nwho = ${who}\npolicy = "fifo 10"\nstage = "oob"\n`).join('')}${made.map(([call, who, sem]) =>
    `[[step]]\ndo = "${call}"\nwho = ${who}\nsem = ${sem}\n`).join('')}`);
  const marked = await browser.evaluate(`[...document.querySelectorAll('#outcomes tbody tr:not(.picture)')].map(it => it.className)`);
  assert.ok(marked.length > 1 && marked.every(it => it === 'bad'), String(marked));
  await page.put('[board]\nthreads = 2\nsems = [1]\n[ask]\nalways_ends = true\nas_picked = true\n[[setup]]\ndo = "attach"\nwho = 1\n'
    + 'policy = "fifo 10"\nstage = "oob"\n[[step]]\ndo = "begin_get"\nwho = 1\nsem = 0\n');
  assert.match(await page.see('verdict'), /^What is asked holds in the one order as threads are picked, but check that it is what you mean: /);
  await page.put(asked('no_finish').replace('ends_waits = true\n', ''));
  assert.match(await page.see('verdict'), /check that it is what you mean: .*no finish after its last wait/);
  await browser.click('#back-to');
  await browser.until(`document.getElementById('verdict').textContent.startsWith('No: ')`);
}
/** A step may say what it is answered: that is offered, and where it is not so the step is told. */
async function expects(page) {
  const { browser } = page, text = '[board]\nthreads = 2\nsems = [0, 3]\n[[step]]\ndo = "peek"\nwho = 0\n';
  const type_at_end = async says => {
    await browser.evaluate(`(() => { const it = document.getElementById('text'); it.focus();
      it.setSelectionRange(it.value.length, it.value.length); })()`);
    await browser.type(says);
  };
  await page.lesson('1. An interrupt');
  await page.put(text);
  await type_at_end('sem = ');
  await browser.key(' ', 'Control');
  assert.equal(await page.see('offers'), '01');
  await browser.key('Escape');
  await browser.type('1');
  await browser.key('Enter');
  await browser.type('expect = "co');
  assert.equal(await page.see('offers'), '"count 0"');
  await browser.key('Enter');
  await browser.until(`document.getElementById('faults').textContent.includes('count 0 is expected, count 3 is answered')`);
  assert.match(await page.see('lines'), /1 T0 peek sem=1 -> count 3/);
  await page.put(await page.value('text').then(it => it.replace('count 0', 'count 3')));
  assert.match(await page.see('faults'), /^no fault, no warning$/);
  await page.put('board threads=2 sems=[3]\nT0 peek sem=0');
  await type_at_end(' -> co');
  assert.equal(await page.see('offers'), 'count 0');
  await browser.key('Escape');
  await browser.click('#back-to');
}
/** All texts are searched by their words; the list has those alone. */
async function seeks(page) {
  const { browser } = page, count = () => browser.evaluate(`document.querySelectorAll('#texts button[data-key]:not([hidden])').length`);
  if (!await browser.evaluate('document.body.classList.contains("listed")')) await browser.click('#lessons-button');
  const whole = await count();
  await browser.click('#seek');
  await browser.type('ceiling mutex');
  assert.match(await page.see('sought'), /^\d+ of \d+ texts$/);
  assert.ok(await count() < whole && await count() > 0);
  await browser.evaluate(`(() => { const it = document.getElementById('seek'); it.value = '';
    it.dispatchEvent(new Event('input')); })()`);
  assert.equal(await count(), whole);
  await browser.click('#lessons-button');
}
/** Orders without end are stopped, by a click, and the page is answered meanwhile. */
async function stops(page) {
  const { browser } = page, callers = [1, 2, 3, 4, 5, 6, 7];
  const text = '[board]\nthreads = 9\nsems = [0]\n[ask]\nalways_ends = true\n' + callers.map(n =>
    `[[step]]\ndo = "put"\nwho = ${n}\nsem = 0\n`.repeat(7)).join('');
  await browser.evaluate(`(() => { const it = document.getElementById('text');
    it.value = ${JSON.stringify(text)}; it.dispatchEvent(new Event('input')); })()`);
  await browser.until(`!document.getElementById('orders-stop').disabled`);
  await page.tab('orders');
  await sleep(700);
  assert.match(await page.see('verdict'), /Going through all orders/);
  await browser.click('#orders-stop');
  await browser.until(`document.getElementById('verdict').textContent.includes('stopped by you')`);
  await page.lesson('Any bits, or all');
  assert.match(await page.see('at'), /of \d+$/);
}
/** A play that takes long says so, and is stopped; the page is answered after it. */
async function stops_play(page) {
  const { browser } = page;
  await page.lesson('6. A deadline against');
  await browser.evaluate(`(() => { const of = window.Worker.prototype, sends = of.postMessage;
    of.postMessage = function (it) { if (!it.words) sends.call(this, it); };
    window.sends = sends; })()`);
  await browser.evaluate(`document.getElementById('text').dispatchEvent(new Event('input'))`);
  await browser.until(`!document.getElementById('busy').hidden`);
  assert.match(await page.see('busy'), /^Playing and drawing: \d+ s/);
  await page.tab('walk');
  await browser.click('#busy-stop');
  await browser.until('!document.body.dataset.waits');
  assert.match(await page.see('stale'), /^It was not played: stopped by you\./);
  const told = await page.see('faults');
  assert.match(told, /^warning the text was not checked: stopped by you.*not played: stopped by you/);
  assert.equal(await browser.evaluate(`document.getElementById('busy').hidden`), true);
  await browser.evaluate(`window.Worker.prototype.postMessage = window.sends`);
  await page.put((await page.value('text')) + '# again\n');
  assert.match(await page.see('faults'), /no fault, no warning/);
  await browser.click('#back-to');
  await browser.until('!document.body.dataset.waits');
}
async function callers(page) {
  const { browser } = page;
  await page.lesson('A stax between stages');
  assert.equal(await page.see('kind'), 'callers');
  await page.tab('walk');
  await browser.click('#lines [data-step="4"]');
  await browser.until(`document.getElementById('state').textContent.includes('After step 4')`);
  assert.match(await page.see('state'), /stax 0in-band, 2 holders/);
  const row = name => browser.evaluate(`[...document.querySelectorAll('#state tbody tr')]
    .find(it => it.firstElementChild.textContent.startsWith('${name}'))?.innerText.replace(/\\s+/g, ' ')`);
  assert.match(await row('T0'), /^T0 in-band – w?\d* ?.*p0$/);
  assert.match(await row('T3'), /^T3 oob fifo 10 f10 picked $/);
  await page.shot('callers');
  await page.lesson('A contended mutex');
  await browser.click('#lines [data-step="5"]');
  await browser.until(`document.getElementById('state').textContent.includes('After step 5')`);
  assert.match(await row('T0'), /^T0 oob fifo 10 f10 picked m0$/);
  assert.match(await row('T1'), /^T1 oob fifo 10 f10 blocked mutex 0 $/);
  assert.match(await row('mutex 0 in the kernel'), /owner T0, T1 waiting/);
  await page.lesson('The core is held');
  for (const [step, says] of [[3, 'taken by T0'], [9, 'free']]) {
    await browser.click(`#lines [data-step="${step}"]`);
    await browser.until(`document.getElementById('state').textContent.includes('After step ${step}')`);
    assert.match(await row('core'), new RegExp(`^core ${says}`));
    assert.match(await row('T1'), /^T1 oob fifo 10/);
  }
}
/** A picture of more than 2,000 marks has pages: turned by buttons, and by the step that is gone to. */
async function pages(page) {
  const { browser } = page, steps = '[[step]]\ndo = "put"\nwho = 0\nsem = 0\n'.repeat(2500);
  const until = says => browser.until(`document.getElementById('page').textContent === '${says}'`);
  await page.put(`limit = 5000\n[board]\nthreads = 1\nsems = [0]\n${steps}`);
  await page.tab('walk');
  await until('page 1 of 2');
  await browser.click('[data-turn="1"]');
  await until('page 2 of 2');
  await browser.until(`document.querySelector('#drawing .mark[data-step="2001"]')`);
  await browser.click('[data-turn="1"]');
  await until('page 2 of 2');
  await browser.click('[data-walk="first"]');
  await browser.click('[data-walk="1"]');
  await until('page 1 of 2');
  await browser.until(`document.querySelectorAll('#drawing .here').length`);
  await browser.click('[data-walk="last"]');
  await until('page 2 of 2');
  await browser.until(`document.querySelectorAll('#drawing .here').length`);
  await page.shot('pages');
  await page.way('down');
  await browser.until(`document.querySelector('#entries [data-step="2500"] title')`);
  await browser.click('[data-turn="-1"]');
  await until('page 1 of 2');
  await browser.until(`document.querySelector('#entries [data-step="1"] title')`);
  assert.equal(await browser.evaluate(`document.querySelector('#entries [data-step="2500"] title')`), null);
  await page.way('');
  await page.lesson('1. An interrupt');
  assert.equal(await browser.evaluate(`document.getElementById('pages').hidden`), true);
}
/** How high the painted text is, and how high the text itself is. */
const HIGH = `(() => { const box = document.getElementById('text');
  const had = document.getElementById('under').getBoundingClientRect().height;
  box.style.height = '0';
  const wanted = box.scrollHeight;
  box.style.height = '';
  return [had, wanted]; })()`;
/** Of a long text there are elements near the view alone, and each line is where the text itself has it. */
async function long_texts(page) {
  const { browser } = page, made = selector => browser.evaluate(`document.querySelectorAll('${selector}').length`);
  const own = await page.value('text'), put = '[[step]]\ndo = "put"\nwho = 0\nsem = 0\n';
  const comment = `# ${'A line that is too long for one row of the text. '.repeat(3)}\u00e4\u00f6\u00fc\n`;
  const steps = [...Array(30).keys()].map(n => comment.repeat(n % 3) + put.repeat(50)).join('');
  const text = `limit = 5000\n[board]\nthreads = 1\nsems = [0]\n${steps}`;
  const is_even = async () => {
    const [had, wanted] = await browser.evaluate(HIGH);
    assert.ok(Math.abs(had - wanted) < 3, `the painted text is ${had} high, the text ${wanted}`);
  };
  await page.put(text);
  assert.equal((await page.see('under')).replace(/\s/g, ''), text.replace(/\s/g, ''));
  assert.ok(await made('#under .line') < 1000 && await made('#entries .entry') < 500);
  await is_even();
  await browser.click('[data-walk="last"]');
  await page.step(1500);
  assert.equal(await made('#entries [data-step="1500"][aria-selected=true]'), 1);
  const steps_seen = await browser.evaluate(`(() => { const all = [...document.querySelectorAll('#under .step')];
    const it = all[0].getBoundingClientRect(), box = document.getElementById('editor').getBoundingClientRect();
    return [all.map(it => it.textContent).join('|'), it.top >= box.top && it.bottom <= box.bottom]; })()`);
  assert.match(steps_seen[0], /^\[\[step\]\]\|do = "put"\|who = 0\|sem = 0/);
  assert.ok(steps_seen[1]);
  await is_even();
  assert.ok(await made('#under .line') < 2000);
  let turn = await page.turn();
  await browser.click('#back-to');
  await page.played(turn);
  assert.notEqual(await page.value('text'), text);
  turn = await page.turn();
  await browser.evaluate(`document.getElementById('text').focus()`);
  await browser.undo();
  await page.played(turn);
  assert.equal(await page.value('text'), text);
  await page.put(own);
}
async function handlers(page) {
  const { browser } = page;
  await page.put('[board]\nthreads = 1\nsems = [0, 0]\n' + ['request"\nline = 5\nstage = "oob"\ncallback = 0',
    'arrive"\nline = 5', 'arrive"\nline = 5', 'peek"\nsem = 1'].map(it => `[[step]]\nwho = 0\ndo = "${it}\n`).join(''));
  assert.match(await page.see('lines'), /peek sem=1 -> count 0/);
  await browser.click('#bank-tab');
  await page.put('[[callback]]\naccepts = 2\ndo = [{ post_sem = 1 }]\n', 'bank');
  assert.match(await page.see('lines'), /peek sem=1 -> count 1/);
  assert.match(await page.see('lines'), /count 1 none/);
  assert.equal(await page.see('note'), '');
  await page.put('[[callback]]\ndo = [{ post_semm = 1 }]\n', 'bank');
  assert.match(await page.see('faults'), /^fault callbacks, line 2 .*write post_sem$/);
  await browser.click('.fix');
  await browser.until(`document.getElementById('bank').value.includes('post_sem ')`);
  await page.put('', 'bank');
  await browser.evaluate(`document.getElementById('bank').focus()`);
  await browser.type('[');
  assert.equal(await page.see('offers'), '[[callback]]');
  await browser.key('Enter');
  await browser.key('Enter');
  await browser.type('do = [{ post_s');
  assert.match(await page.see('offers'), /^post_sem = $/);
  const [offers, bank] = await browser.evaluate(`['offers', 'bank'].map(id =>
    document.getElementById(id).getBoundingClientRect().top)`);
  assert.ok(offers > bank + 20 && offers < bank + 80, `${offers} is not just below ${bank}`);
  await browser.key('Enter');
  await browser.type('1 }]');
  assert.equal(await page.value('bank'), '[[callback]]\ndo = [{ post_sem = 1 }]');
  await browser.until(`document.getElementById('lines').textContent.includes('peek sem=1 -> count 2')`);
  await page.put('', 'bank');
  await browser.click('#text-tab');
}
async function exercises(page) {
  const { browser } = page;
  await page.lesson('1. Ranks along a chain');
  await browser.click('#check');
  await browser.until(`document.getElementById('checked').className === 'bad'`);
  const text = await page.value('text'), turn = await page.turn();
  await page.put(text.replace('# your steps here', '[[step]]\ndo = "claim"\nwho = 4\nmutex = 1\nowner = 2\n'));
  await browser.click('#check');
  await browser.until(`document.getElementById('checked').className === 'good'`);
  await page.shot('exercise');
  assert.ok(await page.turn() > turn);
  await browser.click('#back-to');
}
/** Each stored answer is judged as it has to be, by the page's own button; the caret is at the hole. */
async function judges(page) {
  const { browser } = page, wrong = [];
  for (const it of EXERCISES) {
    await page.lesson(it.title);
    const text = await page.value('text'), chosen = await browser.evaluate(`(() => { const it = document.getElementById('text');
      return it.value.slice(it.selectionStart, it.selectionEnd); })()`);
    assert.equal(text, it.text);
    assert.equal(chosen, text.includes('____') ? '____' : text.includes('# your steps here') ? '# your steps here' : chosen);
    for (const { what, text, bank, wanted } of ANSWERS.filter(answer => answer.exercise === it)) {
      await page.put(text);
      if (bank) await page.put(bank, 'bank');
      await browser.click('#check');
      await browser.until(`document.getElementById('checked').className !== 'busy'`, 60000);
      const how = await browser.evaluate(`document.getElementById('checked').className`);
      if (how !== wanted) wrong.push(`${what}: ${wanted} is wanted, ${how} it is: ${await page.see('checked')}`);
      if (bank) await page.put('', 'bank');
    }
    await browser.click('#back-to');
  }
  assert.deepEqual(wrong, []);
}
/** An exercise of one's own, with a question, shared as a link and opened as another student does. */
async function shares(page) {
  const { browser } = page, put = (id, text) => browser.evaluate(
    `document.getElementById('make-${id}').value = ${JSON.stringify(text)}`);
  await page.lesson('3. A callback that hands on');
  await browser.click('#make-button');
  await put('title', 'Whose half is first?');
  await put('question', 'Which stage plays its half first? Fill the hole.');
  await browser.evaluate(`(() => { const it = document.getElementById('make-text'), at = it.value.indexOf('arrive');
    it.focus(); it.setSelectionRange(at, at + 6); })()`);
  await browser.click('#make-hole');
  assert.match(await page.value('make-text'), /do = "____"/);
  await browser.click('#make-done');
  await browser.until(`document.getElementById('make-said').textContent.includes('its solution is accepted')`);
  await page.shot('make');
  const link = await page.value('make-link');
  assert.match(link, /#exercise=[\w-]+$/);
  await page.open(link);
  assert.equal(await page.see('name'), 'Whose half is first?');
  assert.match(await page.see('question'), /Fill the hole/);
  await browser.click('#check');
  await browser.until(`document.getElementById('checked').textContent.includes('There is a hole')`);
  await page.put((await page.value('text')).replace('____', 'arrive'));
  await browser.click('#check');
  await browser.until(`document.getElementById('checked').className === 'good'`);
  await browser.evaluate(`(() => { const it = { title: 'From a file', question: 'Which?', text: 'a', check: 'trace' };
    const file = new File([JSON.stringify(it)], 'it.json'), held = new DataTransfer();
    held.items.add(file);
    document.body.dispatchEvent(new DragEvent('drop', { dataTransfer: held, bubbles: true })); })()`);
  await browser.until(`document.getElementById('name').textContent === 'From a file'`);
  await page.open(page.url + '#text=bad');
  assert.match(await page.see('status'), /The link could not be read/);
  await page.open(page.url + '#lesson=none');
  assert.match(await page.see('status'), /The link could not be read: this page has no lesson none/);
  await page.lesson('4. A callback that wakes');
  const own = await page.value('text');
  await browser.click('#link');
  await browser.until(`location.hash === '#lesson=lessons-a-callback-that-wakes-a-thread'`);
  const named = await browser.evaluate('location.href');
  await page.lesson('5. A timer');
  await page.open(named);
  assert.equal(await page.value('text'), own);
  await page.put(own + '# mine\n');
  await browser.click('#link');
  await browser.until(`location.hash.startsWith('#text=')`);
  const href = await browser.evaluate('location.href');
  await browser.click('#back-to');
  await page.open(href);
  assert.equal(await page.value('text'), own + '# mine\n');
  assert.match(await page.see('at'), /of \d+$/);
  await page.open();
}
/** What another program reads from a code on the screen; null where there is no such program. */
async function scanned(browser) {
  const file = path.join(os.tmpdir(), `page-code-${process.pid}.png`);
  await browser.shot(file);
  const { stdout, error } = spawnSync('zbarimg', ['-q', '--raw', file], { encoding: 'utf8' });
  fs.rmSync(file);
  return error ? null : stdout.trim();
}
/** The QR code has the link, at the address that is written; of a text that is too long, that is said. */
async function codes(page) {
  const { browser } = page, link_is = says => browser.until(
    `document.getElementById('code').open && ${says}.test(document.getElementById('code-link').value)`);
  const at = async place => {
    await browser.evaluate(`(() => { const it = document.getElementById('code-place');
      it.value = '${place}'; it.dispatchEvent(new Event('change')); })()`);
    await link_is(place ? `/^https:.*#(text|exercise)=/` : `/^#(text|exercise)=/`);
  };
  const points = svg => [...svg.matchAll(/ d="([^"]*)"/g)].pop()?.[1];
  await page.lesson('Any bits, or all');
  await browser.click('#code-button');
  await link_is('/^file:.*#lesson=lessons-any-bits-or-all/');
  await browser.key('Escape');
  const text = (await page.value('text')).replace('fifo 30', 'fifo 31');
  await page.put(text);
  await browser.click('#code-button');
  await link_is('/^file:.*#text=/');
  assert.match(await page.see('code-said'), /points across\. This address is not of the web/);
  await at('https://lab.example/evl.html#old');
  const link = await page.value('code-link'), code = code_of(link);
  assert.match(link, /^https:\/\/lab\.example\/evl\.html#text=[\w-]+$/);
  const drawn = await browser.evaluate(`document.querySelector('#code-drawing svg').outerHTML`);
  assert.equal(points(drawn), points(qr_svg(code, '')));
  const says = `^${link.length} characters, ${code.rows.length} points across`;
  assert.match(await page.see('code-said'), new RegExp(says));
  await page.shot('code');
  const read = await scanned(browser);
  if (read !== null) assert.equal(read, link);
  await at('');
  await browser.key('Escape');
  assert.equal(await browser.evaluate(`document.getElementById('code').open`), false);
  await page.open(page.url + link.slice(link.indexOf('#')));
  assert.equal(await page.value('text'), text);
  const roll = dice(3), chance = Array.from({ length: 4000 }, () => String.fromCharCode(48 + roll(64))).join('');
  await page.put(`${text}# ${chance}\n`);
  await browser.click('#code-button');
  await link_is('/#text=/');
  assert.match(await page.see('code-said'), /^No code: the link has \d+ characters, and a QR code has room for 2953/);
  assert.equal(await browser.evaluate(`document.querySelectorAll('#code-drawing svg').length`), 0);
  await browser.key('Escape');
  await page.lesson('2. A stalled out-of-band');
  await browser.click('#make-button');
  await browser.click('#make-code');
  await link_is('/#exercise=/');
  await browser.key('Escape');
  await browser.key('Escape');
  await page.open();
  return read === null ? 'zbarimg is missing (Debian: zbar-tools): no other program read the code' : 'read by zbarimg';
}
/** Keyboard alone: all that can be reached by Tab has a name, and the tabs go by arrow keys. */
async function keyboard(page) {
  const { browser } = page, seen = new Set();
  await browser.evaluate(`document.getElementById('text-tab').click()`);
  await browser.evaluate('document.body.focus()');
  for (let i = 0; i < 90; i++) {
    await browser.key('Tab');
    seen.add(await page.at());
  }
  const wanted = ['text', 'text-tab', 'walk-tab', 'lines', 'slider', 'link', 'find', 'split-left', 'way', 'state'];
  for (const id of wanted)
    assert.ok(seen.has(id), `${id} is not reached by Tab`);
  await browser.evaluate(`document.getElementById('walk-tab').focus()`);
  await browser.key('ArrowRight');
  assert.equal(await page.at(), 'console-tab');
  await browser.key('Home');
  assert.equal(await page.at(), 'walk-tab');
  await page.tab('walk');
  const unnamed = await browser.evaluate(`[...document.querySelectorAll(
    'button, input:not([hidden]), textarea, select, [tabindex], [role=region], [role=listbox]')].filter(it => {
      const by = it.getAttribute('aria-labelledby');
      return !(it.getAttribute('aria-label') || it.textContent.trim() || it.closest('label')
        || by && document.getElementById(by).textContent);
    }).map(it => it.outerHTML.slice(0, 80))`);
  assert.deepEqual(unnamed, []);
}
/** Where there is little room the head's buttons are behind one, and a line of a lesson opens the steps. */
async function narrow(page) {
  const { browser } = page, seen = () => browser.evaluate(`document.getElementById('tools').offsetParent !== null`);
  assert.equal(await seen(), false);
  await browser.click('#more');
  assert.equal(await seen(), true);
  await browser.click('#more');
  await page.tab('left');
  await browser.click('#story-tab');
  await browser.click('#story .at[data-step="3"]');
  await page.step(3);
  assert.equal(await browser.evaluate(`document.getElementById('walk').hidden`), false);
}
/** A lesson's own text has no line that is wider than its room. */
async function story_fits(page) {
  for (const title of ['13. Inversion by', '14. Inversion ended']) {
    await page.lesson(title, 'story');
    for (const width of [390, 1280]) {
      await page.browser.resize(width, 720);
      await sleep(200);
      const [is, room] = await page.browser.evaluate(`(() => { const it = document.getElementById('side-story');
        return [it.scrollWidth, it.clientWidth]; })()`);
      assert.ok(is <= room, `${title} at ${width}: ${is} in ${room}`);
    }
  }
}
/** A lesson leads to the page's own text of orders, and back. */
async function leads(page) {
  const { browser } = page;
  for (const [from, to] of [['13. Inversion by', 'Inversion by a semaphore, at each moment'], ['14. Inversion ended', 'Inversion ended by a mutex, at each moment']]) {
    await page.lesson(from, 'story');
    assert.doesNotMatch(await page.see('story'), /examples\/|\.\/lab/);
    const turn = await page.turn();
    await browser.evaluate(`document.querySelector('#story a[href^="#lesson="]').click()`);
    await page.played(turn, 60000);
    assert.equal(await page.see('name'), to);
  }
}
/** Each width has no more than the window across, and shows what it should. */
async function widths(page) {
  const { browser } = page;
  await story_fits(page);
  await page.lesson('13. Inversion by a semaphore');
  for (const [width, height] of [[360, 740], [760, 900], [1280, 720], [1920, 1080], [2560, 1300]]) {
    await browser.resize(width, height);
    await sleep(200);
    const across = await browser.evaluate('[document.documentElement.scrollWidth, innerWidth]');
    assert.ok(across[0] <= across[1], `at ${width}: ${across}`);
    if (width <= 760) await narrow(page);
    await browser.evaluate(`document.querySelector('#lines [data-step="6"]').click()`);
    await page.step(6);
    await page.shot(`width_${width}`);
  }
  await browser.resize(1280, 720);
  await browser.click('#wide');
  await page.shot('projector');
  await browser.click('#wide');
  await browser.dark(true);
  assert.equal(await browser.evaluate(`matchMedia('(prefers-color-scheme: dark)').matches`), true);
  await page.shot('dark');
  await browser.dark(false);
}
/** The page's own comparison, over all that the repository holds. */
async function compares(page) {
  const { browser, stored } = page;
  await browser.evaluate(`document.getElementById('compare').closest('details').open = true`);
  await browser.click('#compare');
  await browser.until(`document.getElementById('compared').textContent.includes('are the same')`, 120000);
  assert.match(await page.see('compared'), new RegExp(`^${stored} of ${stored} are the same`));
}
/** What is kept: a text is there again after the page is opened anew. */
async function keeps(page) {
  await page.lesson('5. A timer');
  const text = (await page.value('text')) + '\n# mine\n';
  await page.put(text);
  await page.open();
  assert.match(await page.see('name'), /^5\. A timer/);
  assert.equal(await page.value('text'), text);
  await page.browser.click('#back-to');
}
/** One's own texts: begun, named, edited, there again after the page is opened anew, from a file, and removed. */
async function owns(page) {
  const { browser } = page, mine = () => browser.evaluate(
    `[...document.querySelectorAll('#mine [data-key]')].map(it => it.textContent)`);
  const show = async () => {
    if (!await browser.evaluate('document.body.classList.contains("listed")')) await browser.click('#lessons-button');
  };
  await page.lesson('5. A timer');
  assert.equal(await browser.evaluate(`document.getElementById('name').isContentEditable`), false);
  await show();
  const before = await mine();
  let turn = await page.turn();
  await browser.click('#new-text');
  await page.played(turn);
  assert.match(await page.see('lines'), /put sem=0 -> done/);
  await browser.evaluate(`document.getElementById('name').focus()`);
  await browser.evaluate(`document.getElementById('name').textContent = ''`);
  await browser.type('Two puts');
  await browser.key('Enter');
  assert.equal(await browser.evaluate('document.title'), 'Two puts - the lab');
  assert.deepEqual(await mine(), ['Two puts', ...before]);
  await page.put((await page.value('text')) + '[[step]]\ndo = "put"\nwho = 1\nsem = 0\n');
  await page.open();
  assert.equal(await page.see('name'), 'Two puts');
  assert.match(await page.see('lines'), /2 T1 put sem=0 -> done/);
  const drop_file = async text => {
    const turn = await page.turn();
    await browser.evaluate(`(() => { const file = new File([${JSON.stringify(text)}], 'bare.toml');
      const held = new DataTransfer(); held.items.add(file);
      document.body.dispatchEvent(new DragEvent('drop', { dataTransfer: held, bubbles: true })); })()`);
    await page.played(turn);
  };
  await drop_file('[board]\nthreads = 1\n');
  assert.deepEqual(await mine(), ['bare.toml', 'Two puts', ...before]);
  await show();
  await page.shot('own');
  await drop_file('[board]\n# another\nthreads = 2\n');
  assert.deepEqual(await mine(), ['bare.toml (2)', 'bare.toml', 'Two puts', ...before]);
  await show();
  await browser.click('#mine [data-drop="2"]');
  assert.deepEqual(await mine(), ['bare.toml (2)', 'bare.toml', ...before]);
  await browser.click('#undo-drop');
  assert.deepEqual(await mine(), ['bare.toml (2)', 'bare.toml', 'Two puts', ...before]);
  turn = await page.turn();
  await browser.click('#mine [data-n="2"]');
  await page.played(turn);
  assert.match(await page.see('lines'), /2 T1 put sem=0 -> done/);
  await show();
  for (let i = 0; i < 3; i++) await browser.click('#mine [data-drop="0"]');
  assert.deepEqual(await mine(), before);
  await page.lesson('5. A timer');
}
/** No text takes another one's place: two links of one lesson, and what another tab wrote into the same text. */
async function stays(page) {
  const { browser } = page, kept = says => browser.evaluate(`Object.keys(localStorage).some(key => localStorage[key].includes('${says}'))`);
  const link_with = async says => {
    await page.lesson('13. Inversion by a semaphore');
    await page.put(await page.value('text') + says);
    await browser.click('#link');
    await browser.until(`location.hash.startsWith('#text=')`);
    const link = await browser.evaluate('location.href');
    await browser.click('#back-to');
    return link;
  };
  const anna = await link_with('# Anna\n'), bernd = await link_with('# Bernd\n');
  await page.open(anna);
  await page.put(await page.value('text') + '# 2 points\n');
  await page.open(bernd);
  assert.match(await page.value('text'), /# Bernd\n$/);
  await browser.click('#back-to');
  assert.ok(await kept('2 points'));
  await page.open(anna);
  assert.match(await page.value('text'), /# Anna\n# 2 points\n$/);
  await page.open();
  await page.lesson('5. A timer');
  const own = await page.value('text'), key = 'evl text Lessons 5. A timer that misses periods';
  assert.equal(await browser.evaluate(`document.getElementById('name').textContent`), key.slice('evl text Lessons '.length));
  await browser.evaluate(`localStorage.setItem('${key}', ${JSON.stringify(own + '# their hour\n')})`);
  await page.put(own + '# my word\n');
  assert.match(await page.see('status'), /^Another tab has changed this text too: what it wrote is in My texts, as "5\. A timer .* \(from another tab\)"\.$/);
  assert.ok(await kept('# their hour') && await kept('# my word'));
  const turn = await page.turn();
  await browser.evaluate(`(localStorage.setItem('${key}', ${JSON.stringify(own + '# their second\n')}),
    window.dispatchEvent(new StorageEvent('storage', { key: '${key}' })))`);
  await page.played(turn);
  assert.match(await page.value('text'), /# their second\n$/);
  assert.equal(await page.see('status'), 'Changed in another tab.');
  await browser.click('#back-to');
  while (await browser.evaluate(`Boolean(document.querySelector('#mine [data-drop]'))`)) {
    if (!await browser.evaluate('document.body.classList.contains("listed")')) await browser.click('#lessons-button');
    await browser.click('#mine [data-drop]');
  }
}

export const WAYS = { opens, walks, goes, marks, tables, edits, completes, expects, seeks, lines, drives, orders, atomic, moments, stops, stops_play, callers, pages,
  long_texts, handlers, exercises, judges, owns, stays, leads, shares, codes, keyboard, widths, keeps, compares };
