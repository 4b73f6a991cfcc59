// node --test test/: pictures that go down, as rows beside the trace.
import assert from 'node:assert/strict';
import fs from 'node:fs';
import path from 'node:path';
import test from 'node:test';
import { read_lanes } from '../js/picture.js';

const here = path.dirname(new URL(import.meta.url).pathname), pictures = path.join(here, '../../docs/pictures');

test('each stored picture has a row for each line, in order, with its lanes and strips', () => {
  const all = fs.readdirSync(pictures).filter(name => name.endsWith('.svg'));
  assert.ok(all.length > 10);
  for (const name of all) {
    const text = fs.readFileSync(path.join(pictures, name), 'utf8'), { rows, names, wide } = read_lanes(text);
    const titles = [...text.matchAll(/<title>([^<]*)/g)].map(it => it[1]);
    assert.deepEqual(rows.map(row => row.parts.match(/<title>([^<]*)/)?.[1]), titles, name);
    const strips = text.match(/^<g transform="translate\(\d+,(?!18\)|42\))\d+\)">(?!<title>).*$/gm);
    for (const strip of strips || []) assert.ok(rows.some(row => row.parts.includes(strip)), name);
    const lanes = text.match(/^<path d="M\d+ \d+V/gm)?.length || 0;
    assert.equal(rows[0].parts.match(/<path d="M\d+ -10v20"/g)?.length, names.match(/<text /g)?.length);
    assert.ok(lanes > 0 && !rows.some(row => /font-size="13"/.test(row.parts)), name);
    const labels = [...text.matchAll(/translate\((\d+),\d+\)"><title>(?! ).*<text x="(\d+)" y="4" font-size="13"/g)];
    assert.ok(labels.every(it => +it[1] + +it[2] - 8 === wide), name);
  }
});
test('a picture that goes across has no rows', () => {
  const across = '<svg>\n<path d="M104 60H300" stroke="#b8c4d6"/><text>T0</text>\n';
  assert.deepEqual(read_lanes(across), { names: '', wide: 0, rows: [] });
});
