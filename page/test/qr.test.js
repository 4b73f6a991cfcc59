// node --test test/: QR codes against codes of another encoder, and each level's room against the standard's.
import assert from 'node:assert/strict';
import { createHash } from 'node:crypto';
import test from 'node:test';
import { fixes_of, format_of, middles_of, qr_of, qr_svg, room_of } from '../js/qr.js';
import { code_of, code_report } from '../js/share.js';

/** @type {['L', 'M']} */
const LEVELS = ['L', 'M'], CHARS = 'abcdefghijklmnopqrstuvwxyz0123456789-_#=/:.';
const text_of = size => Array.from({ length: size }, (_, i) => CHARS[(i * i * 7 + i) % CHARS.length]).join('');
const hash_of = rows =>
  createHash('sha256').update(rows.map(row => row.join('')).join('\n')).digest('hex').slice(0, 11);
/** By `qrencode -8 -l LEVEL -m 0` (libqrencode 4.1.1): of the fullest text of each version, the mask that it chose, and
 * the hash of its points. */
const KNOWN = {
  L: '409a3985c205 3597d3ac9a71 2e2e04ff341c 260d53e4ecbf 23ef0112b2b6 27457051fce1 2b46b76eeb28 268c5ed75cef '
    + '200e2ad6614f 2ea6a6299c7f 2f23ec468c6b 2d42336dc12e 2a698dc963fb 279a0ef76e51 276a680349a4 2b0f09a285c9 '
    + '2ba2536e0fa2 2c6bafd04880 2f866e0d6b26 225df1d66e0a 2fccfd3d9748 2a0e6725a8f7 2b546c4d7738 2d0650a413a1 '
    + '29d1cd22e806 2d93dbf15c44 24c4c6e19391 289e0af18faa 24696d409dbc 26172881e4d8 2aec6b2fdc49 2a006eee1800 '
    + '2e9a4990c982 298ccd7290d5 2a524ef63087 2173a53994f6 2a66aa10cfde 29a2a1a15192 2a601434e26e 2ae6fd754567',
  M: '0777dec00339 397df7854c6d 36cafbafd808 3f5951233fa9 34001162e82f 3cf426101118 2e2cd708d892 2c214188b0f4 '
    + '292ac2a29f50 262eacbf3afa 2885973d28ec 2cd04e7c5a32 2300e5eabe58 29b297a444b8 20258fb755a9 21befb2d1866 '
    + '2178cb0875cb 2666cc2c2614 2f4e5f873f5f 249c47f1d0e1 2c77588f3b40 25b577f0e7c4 250a53807cfb 2459fd56d1e5 '
    + '2bd45624c03f 25371c2d1aca 2949f9fca5e6 26e1d61b10e2 27476c0c31bf 255a112cca60 2c6bac0aa87e 22e12215afde '
    + '2db267864479 234560044739 29715e6348f0 2ef67f46ca6c 29caa7f8032f 29f29acd08a5 28a97f36ba3c 2d8363257604',
};
/** By the same, of `the lab`, level M, mask 0. */
const THE_LAB = `
#######...###.#######
#.....#.#.....#.....#
#.###.#..#.##.#.###.#
#.###.#..##.#.#.###.#
#.###.#.#...#.#.###.#
#.....#..#..#.#.....#
#######.#.#.#.#######
.........#.##........
#.#.#.#..###....#..#.
##.###.#.##...##.####
##.#.##.#.#.#...#.###
###....#......###..#.
..##.###.##.#.#.#..##
........##.#.#.##...#
#######...##.########
#.....#..#####...#..#
#.###.#.##.#.##.#..##
#.###.#...#...####.#.
#.###.#.#...#..##.#.#
#.....#.......##...#.
#######.#.#.#.##...##
`;

test('the fullest text of each version and level is as another encoder has it', () => {
  for (const level of LEVELS)
    KNOWN[level].split(' ').forEach((known, i) => {
      const code = qr_of(text_of(room_of(i + 1, level)), level, Number(known[0]));
      assert.equal(code?.version, i + 1);
      assert.equal(hash_of(code.rows), known.slice(1), `${level} ${i + 1}`);
    });
});
test('one more byte takes the next version, or is refused', () => {
  for (const level of LEVELS)
    for (let version = 1; version <= 40; version++) {
      const next = version < 40 ? version + 1 : undefined;
      assert.equal(qr_of('x'.repeat(room_of(version, level) + 1), level, 0)?.version, next);
    }
});
test('a code, point by point', () => {
  const rows = THE_LAB.trim().split('\n').map(row => [...row].map(point => Number(point === '#')));
  assert.deepEqual(qr_of('the lab', 'M', 0)?.rows.map(row => [...row]), rows);
});
test('rooms, rests and patterns are those of the standard', () => {
  assert.deepEqual([1, 6, 10, 25, 40].map(it => room_of(it, 'L')), [17, 134, 271, 1273, 2953]);
  assert.deepEqual([1, 6, 10, 25, 40].map(it => room_of(it, 'M')), [14, 106, 213, 997, 2331]);
  const words = Uint8Array.from([16, 32, 12, 86, 97, 128, 236, 17, 236, 17, 236, 17, 236, 17, 236, 17]);
  assert.deepEqual([...fixes_of(words, 10)], [165, 36, 212, 193, 237, 54, 199, 135, 44, 85]);
  assert.equal(format_of('M', 5).toString(2).padStart(15, '0'), '100000011001110');
  assert.deepEqual([1, 2, 7, 32, 40].map(it => middles_of(it).join(' ')),
    ['', '6 18', '6 22 38', '6 34 60 86 112 138', '6 30 58 86 114 142 170']);
});
test('letters of two bytes count as two; the mask that is chosen is the easiest of the eight', () => {
  assert.equal(qr_of('\u00e4'.repeat(8), 'L')?.version, 1);
  assert.equal(qr_of('\u00e4'.repeat(9), 'L')?.version, 2);
  const code = qr_of(text_of(100), 'M');
  assert.ok(code && code.mask >= 0 && code.mask < 8);
  assert.deepEqual(code.rows, qr_of(text_of(100), 'M', code.mask)?.rows);
});
test('the drawing has each dark point, and four light ones around', () => {
  const code = qr_of('the lab', 'M'), svg = code ? qr_svg(code, 'it') : '', at = new Set();
  for (const [, x, y, wide] of svg.matchAll(/M(\d+) ([\d.]+)h(\d+)/g))
    for (let i = 0; i < Number(wide); i++) at.add(`${Number(x) + i} ${Number(y) - .5}`);
  assert.match(svg, /^<svg viewBox="0 0 29 29"/);
  code?.rows.forEach((row, y) => row.forEach((dark, x) => assert.equal(at.has(`${x + 4} ${y + 4}`), dark === 1)));
});
test('a small link has a code of level M, a longer one of level L, and one of 3,000 letters none', () => {
  const of = size => 'https://x/#text=' + 'a'.repeat(size - 16), report = link => code_report(link, code_of(link));
  assert.deepEqual([665, 666, 667, 2953].map(size => code_of(of(size))?.level), ['M', 'M', 'L', 'L']);
  assert.equal(code_of(of(2954)), null);
  assert.match(report(of(2954)), /^No code: the link has 2954 characters, and a QR code has room for 2953\./);
  assert.equal(report(of(100)), '100 characters, 41 points across.');
  assert.match(report('file:///home/x/evl.html#text=abc'), /other devices cannot open it/);
});
test('an address that other devices cannot open is named as that', () => {
  const report = (/** @type {string} */ place) => code_report(`${place}#lesson=a`, code_of(`${place}#lesson=a`));
  for (const place of ['http://127.0.0.1:8000/', 'http://localhost/evl.html', 'https://[::1]:9/'])
    assert.match(report(place), /This address is of this device alone, so other devices cannot open it/, place);
  assert.match(report('file:///a/evl.html'), /This address is not of the web/);
  for (const place of ['https://lab.example/', 'http://192.168.0.7:8000/', 'https://localhost.example/', 'https://127.lab.example/'])
    assert.doesNotMatch(report(place), /cannot open/, place);
});
