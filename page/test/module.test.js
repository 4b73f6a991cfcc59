// node --test test/: the module by Node, where tools/page has made it; and what lower.py refuses.
import assert from 'node:assert/strict';
import { spawnSync } from 'node:child_process';
import fs from 'node:fs';
import os from 'node:os';
import path from 'node:path';
import test from 'node:test';
import { fileURLToPath } from 'node:url';
import { run_program } from '../host.js';

const here = fileURLToPath(new URL('..', import.meta.url)), code = path.join(here, 'out/site/lab.wasm');
const skip = fs.existsSync(code) ? false : 'there is no out/site/lab.wasm: tools/page makes it';

test('stored answers are the same by Node', { skip }, () => {
  const module = new WebAssembly.Module(fs.readFileSync(code));
  const stored = JSON.parse(fs.readFileSync(path.join(here, 'out/site/stored.json'), 'utf8'));
  assert.ok(stored.length > 100);
  for (const it of stored) {
    const { status, out, err } = run_program(module, ['lab', ...it.words, it.name], { [it.name]: it.text }, '');
    assert.equal(out + (status ? err : ''), it.told, it.name);
  }
});
test('what goes to standard error is heard as it comes', { skip }, () => {
  const module = new WebAssembly.Module(fs.readFileSync(code)), heard = [];
  const text = '[board]\nthreads = 1\n';
  const { err, out } = run_program(module, ['lab', 'play', 'x'], { x: text }, '', part => heard.push(part));
  assert.equal(Buffer.concat(heard).toString(), err);
  assert.match(err, /^x: done/);
  assert.match(out, /^board /);
});
test('lab.mjs has the status, the output and the errors of the program', { skip }, () => {
  const lab = (words, input) =>
    spawnSync(process.execPath, [path.join(here, 'lab.mjs'), ...words], { input, encoding: 'utf8' });
  const text = '[board]\nthreads = 1\n[[step]]\ndo = "now"\nwho = 0\n';
  const { status, stdout, stderr } = lab(['play', '-'], text);
  assert.deepEqual([status, stdout.split('\n')[1], stderr], [0, '1 T0 now -> number 0', '-: done\n']);
  assert.deepEqual([['play', 'none.toml'], ['nothing'], ['help', 'put']].map(words => lab(words).status), [2, 3, 0]);
  assert.equal(lab(['play', '-'], text.replace('now', 'new')).status, 2);
});
test('the page in one file is one script that can be read', { skip: skip || !fs.existsSync(path.join(here, 'out/evl.html')) }, () => {
  const html = fs.readFileSync(path.join(here, 'out/evl.html'), 'utf8');
  const script = html.split('<script type="module">')[1].split('</script>')[0];
  const read = spawnSync(process.execPath, ['--check', '--input-type=module'], { input: script, encoding: 'utf8' });
  assert.equal(read.stderr, '');
  assert.doesNotMatch(script, /^(import|export) /m);
});
/** A module of one import. */
const importing = (of, name) => Buffer.from([0, 97, 115, 109, 1, 0, 0, 0, 1, 4, 1, 96, 0, 0,
  2, of.length + name.length + 5, 1, of.length, ...Buffer.from(of), name.length, ...Buffer.from(name), 0, 0]);
test('a module that imports anything but the page is refused', () => {
  const folder = fs.mkdtempSync(path.join(os.tmpdir(), 'page-lower-'));
  const lower = bytes => {
    fs.writeFileSync(path.join(folder, 'in.wasm'), bytes);
    const words = [path.join(here, 'lower.py'), 'in.wasm', 'out.wasm'];
    return spawnSync('python3', words, { cwd: folder, encoding: 'utf8' });
  };
  assert.equal(lower(importing('page', 'word')).status, 0);
  const refused = lower(importing('env', 'system'));
  assert.notEqual(refused.status, 0);
  assert.match(refused.stderr, /the import env\.system is not known here/);
  assert.notEqual(lower(Buffer.from('no module')).status, 0);
  fs.rmSync(folder, { recursive: true });
});
