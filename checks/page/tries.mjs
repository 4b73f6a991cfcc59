// node tries.mjs PAGE TOP RUNS TEXTS SHOTS NATIVE BROWSER ..: tries a page in browsers without a screen, and prints a
// line for each try. NATIVE is the native program lab, or - for none; SHOTS a folder for screenshots, or -.
import fs from 'node:fs';
import { pathToFileURL } from 'node:url';
import zlib from 'node:zlib';
import { Chromium, Firefox } from './browsers.mjs';
import { memory, native, stored, stored_cases } from './runs.mjs';
import { texts } from './texts.mjs';
import { puts, times } from './times.mjs';
import { Page, WAYS } from './ways.mjs';

const [file, top, runs, count, shots, lab, ...names] = process.argv.slice(2);
const native_lab = lab === '-' ? null : lab, html = fs.readFileSync(file, 'utf8');
/** What the page holds packed under a name. */
const part = name => zlib.gunzipSync(Buffer.from(html.split(`id="${name}">`)[1].split('<')[0], 'base64'));
let failed = 0;

async function attempt(name, what, does, page) {
  const begun = Date.now();
  try {
    const told = await does();
    console.log(`${name}: ${what}: ok, ${((Date.now() - begun) / 1000).toFixed(1)} s${told ? `: ${told}` : ''}`);
  } catch (error) {
    failed++;
    console.log(`${name}: ${what}: FAILED: ${error.stack}`);
    if (page.shots) await page.browser.shot(`${page.shots}/${name}_failed_${what}.png`).catch(() => {});
    await page.open().catch(() => {});
  }
}
async function try_browser(Kind) {
  const browser = await Kind.open(), { name } = browser, stored_here = JSON.parse(part('stored.json')).length;
  const page = new Page(browser, pathToFileURL(file).href, stored_here, shots === '-' ? '' : shots, top);
  try {
    await page.open();
    for (const [what, does] of Object.entries(WAYS)) await attempt(name, what, () => does(page), page);
    await attempt(name, 'stored', () => stored(browser, top), page);
    if (native_lab) await attempt(name, 'native', () => native(browser, top, native_lab, Number(runs)), page);
    await attempt(name, 'memory', () => memory(browser, part('lab.wasm'), puts), page);
    await attempt(name, 'texts', () => texts(page, top, Number(count)), page);
    await attempt(name, 'times', () => times(page, file, native_lab), page);
    await attempt(name, 'problems', () => {
      if (browser.problems.length) throw new Error(browser.problems.join('\n'));
    }, page);
  } finally {
    await browser.close();
  }
}
const of = stored_cases(top).length;
if (!of) throw new Error('crates/test_rows/data holds no answers');
for (const Kind of [Chromium, Firefox]) if (names.includes(Kind.command)) await try_browser(Kind);
console.log(failed ? `page: ${failed} failed` : 'page: ok');
process.exit(failed ? 1 : 0);
