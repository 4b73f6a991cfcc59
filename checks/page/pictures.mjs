// node pictures.mjs PAGE FOLDER: takes the pictures of docs/use/PAGE.md anew, in Chromium.
import { pathToFileURL } from 'node:url';
import { Chromium, sleep } from './browsers.mjs';
import { Page } from './ways.mjs';

const [file, folder] = process.argv.slice(2), browser = await Chromium.open();
const page = new Page(browser, pathToFileURL(file).href, 0, '');
const take = async name => {
  await sleep(400);
  await browser.shot(`${folder}/page_${name}.png`);
};
try {
  await page.open();
  await page.lesson('4. A callback that wakes', 'story');
  await browser.click('#story .at[data-step="6"]');
  await take('lesson');
  await page.lesson('2. A stalled out-of-band');
  await browser.click('#lines [data-step="6"]');
  await page.put((await page.value('text')).replace('do = "arrive"', 'do = "arive"').replace('line = 5', 'lien = 5'));
  await browser.evaluate(`document.getElementById('editor').scrollTop = 0`);
  await take('faults');
  await page.lesson('Two locks', 'story');
  await browser.until(`document.getElementById('verdict').textContent.startsWith('No: ')`);
  await take('orders');
  await page.lesson('1. Ranks along a chain');
  await page.put((await page.value('text')).replace('# your steps here',
    '[[step]]\ndo = "claim"\nwho = 4\nmutex = 1\nowner = 2'));
  await browser.click('#lines [data-step="6"]');
  await browser.click('#check');
  await browser.until(`document.getElementById('checked').className === 'good'`);
  await take('exercise');
  await browser.resize(360, 740);
  await page.lesson('14. Inversion ended');
  await page.tab('walk');
  await browser.click('#lines [data-step="3"]');
  await take('narrow');
} finally {
  await browser.close();
}
