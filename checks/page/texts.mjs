// Texts of every kind put into the page, by its editor: each is answered at its place, and the page is usable after it.
import assert from 'node:assert/strict';
import fs from 'node:fs';
import path from 'node:path';
import { damaged, dice, random_scenario } from './runs.mjs';

const BOARD = '[board]\nthreads = 1\n', IMAGE = '<img src=x onerror=alert(1)>';
const ODD = ['', ' \n', '\u0000[board]', `# \u{1F642} \u00fc\n${BOARD}[[step]]\ndo = "p\u00fct"\nwho = 0\n`,
  `${IMAGE} <script>`, `${BOARD}[[step]]\ndo = "${IMAGE}"\nwho = 0\n`, '[[callback]]\ndo = []\n',
  `[ask]\nnever = 3\n${BOARD}[[step]]\nwho = 0\ndo = "now"\n`, '\r\n\r\n', '[board]\nthreads = 256\n',
  'a'.repeat(5000), '[[step]]\n'.repeat(300), '{ do = "x" }\n'.repeat(200), '\ufeff' + BOARD, 'board',
  '\ufeffT0 now', `T0 ${IMAGE}`, 'T0 put sem=\n'.repeat(300), 'board threads=2\nsetup T1 now\nsetup\n', '3 T0\r\n- T0 now'];

function bad_texts(top, count) {
  const roll = dice(7), all = [...ODD], folders = ['examples/faulty', 'callers', 'orders', 'scenarios', 'banks'];
  const found = folders.flatMap(name => ['', 'examples'].map(above => path.join(top, above, name)))
    .filter(folder => fs.existsSync(folder));
  const texts = found.flatMap(folder => fs.readdirSync(folder).filter(name => name.endsWith('.toml'))
    .map(name => fs.readFileSync(path.join(folder, name), 'utf8'))).filter(text => text.length < 4000);
  all.push(...texts);
  while (all.length < count) {
    const text = roll(2) ? random_scenario(roll) : texts[roll(texts.length)];
    all.push(roll(3) ? damaged(roll, text).toString() : text);
  }
  return all.slice(0, Math.max(count, 0));
}
/** In the page: puts each text in, waits until it is answered, walks to its last step, and reports what is amiss. */
const TRY = `async texts => {
  const $ = id => document.getElementById(id), amiss = [], kinds = {};
  const until = async (holds, ms) => {
    for (const end = performance.now() + ms; !holds(); await new Promise(done => setTimeout(done, 4)))
      if (performance.now() > end) return false;
    return true;
  };
  window.amiss ||= [];
  window.onerror = says => { window.amiss.push(String(says)); };
  window.onunhandledrejection = event => { window.amiss.push(String(event.reason)); };
  let worst = 0;
  for (const text of texts) {
    const begun = performance.now(), turn = Number(document.body.dataset.done || 0);
    $('text').value = text;
    $('text').dispatchEvent(new Event('input'));
    const goes = () => $('kind').textContent === 'orders' && $('verdict').textContent.startsWith('Going through');
    const stop = () => { if (performance.now() - begun > 5000 && goes()) $('orders-stop').click(); };
    const answered = await until(() => Number(document.body.dataset.done) > turn || stop(), 12000);
    if (!answered) { amiss.push(['not answered', text]); continue; }
    worst = Math.max(worst, performance.now() - begun);
    const kind = $('kind').textContent;
    const says = ['faults', 'verdict', 'stale', 'lines'].map(id => $(id).textContent).join('');
    kinds[kind] = (kinds[kind] || 0) + 1;
    if (!says) amiss.push(['nothing is said', text]);
    const shown = text.replace(/\\s/g, '').replaceAll('\\0', '\ufffd');
    if ($('under').textContent.replace(/\\s/g, '') !== shown) amiss.push(['not painted', text]);
    document.querySelector('[data-walk="last"]').click();
    document.querySelector('[data-walk="-1"]').click();
  }
  return { amiss: [...amiss, ...window.amiss].slice(0, 5), kinds, worst: Math.round(worst) };
}`;
export async function texts(page, top, count) {
  const all = bad_texts(top, count), kinds = {};
  let worst = 0;
  await page.tab('text');
  for (let at = 0; at < all.length; at += 40) {
    const said = await page.browser.evaluate(`(${TRY})(${JSON.stringify(all.slice(at, at + 40))})`);
    assert.deepEqual(said.amiss, []);
    worst = Math.max(worst, said.worst);
    for (const kind in said.kinds) kinds[kind] = (kinds[kind] || 0) + said.kinds[kind];
  }
  await page.lesson('1. An interrupt');
  const turn = await page.turn();
  await page.browser.click('#back-to');
  await page.played(turn);
  assert.match(await page.see('at'), /of 9$/);
  const told = Object.entries(kinds).map(([kind, n]) => `${n} ${kind}`).join(', ');
  return `${all.length} texts (${told}): each is answered, the page lives; the longest took ${worst} ms`;
}
