// A text as a QR code (ISO/IEC 18004, model 2): byte mode, levels L and M, versions 1 to 40.

/** @typedef {{ version: number, level: 'L' | 'M', mask: number, rows: Uint8Array[] }} Code  1 is a dark point. */
// Of each version from 1 on: how many words of a block correct errors, and how many blocks there are.
const FIXES = {
  L: [7, 10, 15, 20, 26, 18, 20, 24, 30, 18, 20, 24, 26, 30, 22, 24, 28, 30, 28, 28, 28, 28, 30, 30, 26, 28,
    ...Array(14).fill(30)],
  M: [10, 16, 26, 18, 24, 16, 18, 22, 22, 26, 30, 22, 22, 24, 24, 28, 28, 26, 26, 26, 26, ...Array(19).fill(28)],
};
const BLOCKS = {
  L: [1, 1, 1, 1, 1, 2, 2, 2, 2, 4, 4, 4, 4, 4, 6, 6, 6, 6, 7, 8, 8, 9, 9, 10, 12, 12, 12, 13, 14, 15, 16, 17, 18, 19,
    19, 20, 21, 22, 24, 25],
  M: [1, 1, 1, 2, 2, 4, 4, 4, 5, 5, 5, 8, 9, 9, 10, 10, 11, 13, 14, 16, 17, 17, 18, 20, 21, 23, 25, 26, 28, 29, 31, 33,
    35, 37, 38, 40, 43, 45, 47, 49],
};
/** @type {((x: number, y: number) => boolean)[]} */
const MASKS = [(x, y) => (x + y) % 2 === 0, (x, y) => y % 2 === 0, (x, y) => x % 3 === 0, (x, y) => (x + y) % 3 === 0,
  (x, y) => (Math.floor(x / 3) + Math.floor(y / 2)) % 2 === 0, (x, y) => x * y % 2 + x * y % 3 === 0,
  (x, y) => (x * y % 2 + x * y % 3) % 2 === 0, (x, y) => ((x + y) % 2 + x * y % 3) % 2 === 0];
const LAST = 40, FREE = 2;

/** The powers of 2 in the field of 256 elements, by x^8 = x^4 + x^3 + x^2 + 1, and their logarithms. */
const POWERS = new Uint8Array(510), LOGS = new Uint8Array(256);
for (let i = 0, value = 1; i < 255; i++, value = value << 1 ^ (value & 128 ? 0x11d : 0)) {
  POWERS[i] = POWERS[i + 255] = value;
  LOGS[value] = i;
}
/** @param {number} a @param {number} b */
const times = (a, b) => a && b ? POWERS[LOGS[a] + LOGS[b]] : 0;
/** What a division by the product of all (x - 2^i), i below the count, leaves (Reed-Solomon).
 * @param {Uint8Array} words */
export function fixes_of(words, /** @type {number} */ count) {
  let product = [1];
  for (let i = 0; i < count; i++) {
    const raised = [...product, 0];
    product = raised.map((it, k) => it ^ times(k ? product[k - 1] : 0, POWERS[i]));
  }
  const rest = new Uint8Array(words.length + count);
  rest.set(words);
  for (let at = 0; at < words.length; at++)
    for (let k = count; k >= 0; k--) rest[at + k] ^= times(product[k], k ? rest[at] : 0);
  return rest.subarray(words.length);
}

/** Where the middles of the small squares are, in both directions. @param {number} version */
export function middles_of(version) {
  if (version === 1) return [];
  const count = Math.floor(version / 7) + 2, last = version * 4 + 10;
  const apart = version === 32 ? 26 : Math.ceil((last - 6) / (count - 1) / 2) * 2;
  return [6, ...Array.from({ length: count - 1 }, (_, i) => last - apart * (count - 2 - i))];
}
/** How many words a version has in all: its points but the patterns, by eights. @param {number} version */
function words_in(version) {
  const size = version * 4 + 17, count = middles_of(version).length;
  // Three squares with their edges and the format's points; two rows of points in turn; the version's own points.
  const squares = count ? 25 * (count * count - 3) - 10 * (count - 2) : 0;
  const taken = 3 * 64 + 31 + 2 * (size - 16) + squares + (version < 7 ? 0 : 36);
  return Math.floor((size * size - taken) / 8);
}
/** How many bytes of text a version takes. @param {number} version @param {'L' | 'M'} level */
export function room_of(version, level) {
  const fixes = FIXES[level][version - 1] * BLOCKS[level][version - 1];
  return words_in(version) - fixes - (version < 10 ? 2 : 3);
}
/** The words of a text, with what corrects them, in the order in which they are placed. @param {Uint8Array} bytes */
function words_of(bytes, /** @type {number} */ version, /** @type {'L' | 'M'} */ level) {
  const blocks = BLOCKS[level][version - 1], fixes = FIXES[level][version - 1];
  const all = words_in(version), words = new Uint8Array(all - blocks * fixes);
  // The mode is 4, then comes the length, of one byte or two; each later byte is between two words. The rest is filled.
  const head = version < 10 ? [bytes.length] : [bytes.length >> 8, bytes.length & 255];
  let at = 0, half = 4;
  for (const byte of [...head, ...bytes, 0]) {
    words[at++] = half << 4 | byte >> 4;
    half = byte & 15;
  }
  for (let fill = 0xec; at < words.length; fill ^= 0xec ^ 0x11) words[at++] = fill;
  const low = Math.floor(words.length / blocks), longer = words.length % blocks, parts = [];
  for (let i = 0, from = 0; i < blocks; i++) {
    const part = words.subarray(from, from += low + (i < blocks - longer ? 0 : 1));
    parts.push({ part, fix: fixes_of(part, fixes) });
  }
  const placed = [];
  for (let i = 0; i <= low; i++) for (const { part } of parts) if (i < part.length) placed.push(part[i]);
  for (let i = 0; i < fixes; i++) for (const { fix } of parts) placed.push(fix[i]);
  return placed;
}
/** A number with the rest of its division after it, by a polynomial whose highest power is given. */
function with_rest(/** @type {number} */ value, /** @type {number} */ by, /** @type {number} */ power) {
  let rest = value << power;
  for (let i = 31 - Math.clz32(rest); i >= power; i--) if (rest >> i & 1) rest ^= by << i - power;
  return value << power | rest;
}
/** @param {'L' | 'M'} level @param {number} mask */
export const format_of = (level, mask) => with_rest((level === 'L' ? 8 : 0) | mask, 0x537, 10) ^ 0x5412;
/** @param {Uint8Array[]} rows @param {'L' | 'M'} level @param {number} mask */
function put_format(rows, level, mask) {
  const size = rows.length, bits = format_of(level, mask), bit = (/** @type {number} */ i) => bits >> i & 1;
  for (let i = 0; i < 15; i++) {
    rows[i < 6 ? i : i < 8 ? i + 1 : size - 15 + i][8] = bit(i);
    rows[8][i < 8 ? size - 1 - i : i < 9 ? 7 : 14 - i] = bit(i);
  }
  rows[size - 8][8] = 1;
}
/** The points that are the same for each text; the others are free. @param {number} version */
function patterns_of(version) {
  const size = version * 4 + 17, rows = Array.from({ length: size }, () => new Uint8Array(size).fill(FREE));
  /** A square of dark rings around a middle, some of them light; what is outside of the code is left. */
  const square = ([x, y], /** @type {number} */ rings, /** @type {number[]} */ light) => {
    for (let dy = -rings; dy <= rings; dy++)
      for (let dx = -rings; dx <= rings; dx++) {
        const row = rows[y + dy] || [], ring = Math.max(Math.abs(dx), Math.abs(dy));
        if (row[x + dx] !== undefined) row[x + dx] = light.includes(ring) ? 0 : 1;
      }
  };
  for (let i = 0; i < size; i++) rows[6][i] = rows[i][6] = 1 - i % 2;
  for (const [x, y] of [[3, 3], [size - 4, 3], [3, size - 4]]) square([x, y], 4, [2, 4]);
  const middles = middles_of(version), last = middles[middles.length - 1];
  for (const x of middles)
    for (const y of middles)
      if (!(x === 6 && (y === 6 || y === last) || y === 6 && x === last)) square([x, y], 2, [1]);
  put_format(rows, 'L', 0);
  const bits = version < 7 ? 0 : with_rest(version, 0x1f25, 12);
  for (let i = 0; i < 18 && version >= 7; i++) {
    const far = size - 11 + i % 3, near = Math.floor(i / 3);
    rows[near][far] = rows[far][near] = bits >> i & 1;
  }
  return rows;
}
/** Puts the words' bits in: two columns at a time from the right, up and down in turn. @param {Uint8Array[]} rows */
function place(rows, /** @type {number[]} */ words) {
  const size = rows.length;
  let at = 0, up = true;
  for (let right = size - 1; right > 0; right -= 2, up = !up) {
    if (right === 6) right--;
    for (let i = 0; i < size * 2; i++) {
      const y = up ? size - 1 - (i >> 1) : i >> 1, x = right - i % 2;
      if (rows[y][x] !== FREE) continue;
      rows[y][x] = (words[at >> 3] ?? 0) >> 7 - at % 8 & 1;
      at++;
    }
  }
}
/** The penalty of one line of points: runs of five and more, and what looks like a square. @param {number[]} line */
function line_penalty(line) {
  let sum = 0, run = 0;
  for (let i = 0; i < line.length; i++) {
    run = i && line[i] === line[i - 1] ? run + 1 : 1;
    if (run === 5) sum += 3;
    else if (run > 5) sum++;
  }
  const text = line.join('');
  for (const like of ['10111010000', '00001011101'])
    for (let at = text.indexOf(like); at >= 0; at = text.indexOf(like, at + 1)) sum += 40;
  return sum;
}
/** How hard a code is to read, as the standard counts it. @param {Uint8Array[]} rows */
function penalty_of(rows) {
  const size = rows.length;
  let sum = 0, dark = 0;
  for (let i = 0; i < size; i++) sum += line_penalty([...rows[i]]) + line_penalty(rows.map(row => row[i]));
  for (let y = 0; y < size; y++)
    for (let x = 0; x < size; x++) {
      dark += rows[y][x];
      const four = rows[y][x] + rows[y][x + 1] + rows[y + 1]?.[x] + rows[y + 1]?.[x + 1];
      if (four === 0 || four === 4) sum += 3;
    }
  return sum + 10 * Math.floor(Math.abs(dark * 20 - size * size * 10) / (size * size));
}
/**
 * The code of a text, by the least version that has room for it; null where none has.
 * @param {string} text @param {'L' | 'M'} level @param {number} [wanted]  a mask; else the one that is easiest to read
 * @returns {Code | null}
 */
export function qr_of(text, level, wanted) {
  const bytes = new TextEncoder().encode(text);
  let version = 1;
  while (version <= LAST && room_of(version, level) < bytes.length) version++;
  if (version > LAST) return null;
  const patterns = patterns_of(version), filled = patterns.map(row => row.slice());
  place(filled, words_of(bytes, version, level));
  const codes = (wanted === undefined ? [...MASKS.keys()] : [wanted]).map(mask => {
    const turns = MASKS[mask], rows = filled.map((row, y) =>
      row.map((point, x) => patterns[y][x] === FREE && turns(x, y) ? 1 - point : point));
    put_format(rows, level, mask);
    return { version, level, mask, rows, penalty: wanted === undefined ? penalty_of(rows) : 0 };
  });
  return codes.reduce((best, it) => it.penalty < best.penalty ? it : best);
}
/** A code as a drawing, with four light points around it. @param {Code} code @param {string} name */
export function qr_svg({ rows }, name) {
  const size = rows.length + 8, path = rows.map((row, y) => [...row.join('').matchAll(/1+/g)].map(it =>
    `M${(it.index || 0) + 4} ${y + 4.5}h${it[0].length}`).join('')).join('');
  return `<svg viewBox="0 0 ${size} ${size}" role="img" aria-label="${name}" shape-rendering="crispEdges">`
    + `<path fill="#fff" d="M0 0h${size}v${size}H0z"/><path stroke="#000" d="${path}"/></svg>`;
}
