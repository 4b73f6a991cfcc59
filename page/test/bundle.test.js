// node --test test/: the one file has all modules as one script, so no name of the top may be in two of them.
import assert from 'node:assert/strict';
import fs from 'node:fs';
import test from 'node:test';

test('no name is in two modules', () => {
  const folder = new URL('../js/', import.meta.url), names = new Map();
  for (const file of fs.readdirSync(folder)) {
    const text = fs.readFileSync(new URL(file, folder), 'utf8');
    const found = [...text.matchAll(/^(?:export )?(?:async )?(?:const|let|function|class) +([\w$]+)/gm)].map(it => it[1]);
    assert.ok(found.length, file);
    for (const name of found) {
      assert.equal(names.get(name), undefined, `${name} is in ${names.get(name)} and in ${file}`);
      names.set(name, file);
    }
  }
});
