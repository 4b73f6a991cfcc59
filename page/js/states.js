// How a machine is before the first step and after each, as `lab play --states` tells it, as rows of a table.

/** A rank as a policy writes it: real-time, quota or weak. @param {number} n */
export const rank_text = n => n >= 512 ? 'f' + (n - 512) : n >= 256 ? 'q' + (n - 256) : 'w' + n;
/** The rank that a policy gives. @param {string} policy */
function own_rank(policy) {
  const [name, ...numbers] = policy.split(' '), real_time = name === 'fifo' || name === 'rr';
  return real_time ? 512 + +numbers[0] : name === 'quota' ? 256 + +numbers[1] : +numbers[0];
}
/** A rank, with an arrow where it isn't the one that the policy gives. @param {string} policy @param {number} rank */
const rank_of = (policy, rank) => rank_text(rank) + (rank === own_rank(policy) ? '' : ' ↑');
/** @typedef {{ for: string, number: number, way?: string, ended: string | null }} Wait */
/** @typedef {{ thread: number, stage: string, policy: string, rank: number, waits: Wait | null }} Attached */
/** @typedef {{ name: string, stage: string, policy: string, rank: string, is: string, wait: string }} Thread */

/**
 * The states that `play --states` printed: before the first step, then after each. A number that is too great for this
 * language stays a text.
 */
export const read_states = (/** @type {string} */ out) => out.split('\n').filter(Boolean)
  .map(line => JSON.parse(line.replace(/: (\d{16,})/g, ': "$1"')));

/** The queues of an element that a wait is in. @param {any} state @param {Wait} it @returns {number[]} */
function queue_of(state, it) {
  const kind = { sem: 'sems', flags: 'flags', mutex: 'mutexes', write: 'xbufs', read: 'xbufs' }[it.for] || '';
  const name = kind === 'xbufs' ? 'xbuf' : it.for;
  const element = state[kind].find((/** @type {any} */ one) => one[name] === it.number);
  return (it.way ? element?.[it.way][it.for === 'write' ? 'writing' : 'reading'] : element?.waiting) || [];
}
/** What a thread waits for, and its place among several in the queue. @param {any} state @param {Attached} it */
function wait_text(state, it) {
  if (!it.waits) return '';
  const { for: of, number, way, ended } = it.waits, queue = queue_of(state, it.waits);
  const what = way ? `${of} xbuf ${number} ${way}` : `${of} ${number}`, place = queue.indexOf(it.thread) + 1;
  if (ended) return `${ended}: ${what}`;
  return queue.length > 1 && place ? `${what} (${place} of ${queue.length})` : what;
}
/** @param {any} state @param {number} n @param {Attached | undefined} it @returns {Thread} */
function thread_of(state, n, it) {
  if (!it) return { name: `T${n}`, stage: 'in-band', policy: '–', rank: '–', is: '–', wait: '' };
  const is = it.waits && !it.waits.ended ? 'blocked' : state.picked === n ? 'picked' : state.ready.includes(n) ? 'ready' : 'in-band';
  return { name: `T${n}`, stage: it.stage === 'oob' ? 'oob' : 'in-band', policy: it.policy,
    rank: rank_of(it.policy, it.rank), is, wait: wait_text(state, it) };
}
const threads_text = (/** @type {number[]} */ threads) => threads.map(n => 'T' + n).join(', ');
const waiting_text = (/** @type {number[]} */ queue) => queue.length ? `, ${threads_text(queue)} waiting` : '';
/** @param {any} stage */
const stage_text = stage => (stage.stalled ? 'stalled; ' : '')
  + (stage.pending.map((/** @type {number} */ n) => n ? `line ${n}` : 'clock').join(', ') || 'nothing') + ' pending';
/** @param {any} it */
const way_text = it => `${it.bytes} bytes` + (it.writing.length ? `, ${threads_text(it.writing)} writing` : '')
  + (it.reading.length ? `, ${threads_text(it.reading)} reading` : '');
/** @param {any} it */
const timer_text = it => it.is === 'running' ? `next ${it.next} interval ${it.interval}` : it.is;

/**
 * A state as a table: each thread, and a row for each element, stage and timer, the ready list and the date. The first
 * line of the trace says how many threads and mutexes the board has: only those that are attached, or have a recorded
 * owner, are told.
 * @param {any} state @param {string} head @returns {{ threads: Thread[], rows: Map<string, string> }}
 */
export function state_table(state, head) {
  const count = (/** @type {string} */ of) => +(head.match(new RegExp(` ${of}=(\\d+)`))?.[1] || 0);
  const attached = new Map(state.threads.map((/** @type {Attached} */ it) => [it.thread, it]));
  const threads = [...Array(count('threads')).keys()].map(n => thread_of(state, n, attached.get(n)));
  const rows = new Map(), owned = new Map(state.mutexes.map((/** @type {any} */ it) => [it.mutex, it]));
  for (let n = 0; n < count('mutexes'); n++) {
    const it = owned.get(n);
    rows.set(`mutex ${n}`, it ? `owner T${it.owner}${waiting_text(it.waiting)}` : 'no owner');
  }
  for (const it of state.sems) rows.set(`sem ${it.sem}`, `${Math.max(0, it.count)}${waiting_text(it.waiting)}`);
  for (const it of state.flags) rows.set(`flags ${it.flags}`, `${it.bits}${waiting_text(it.waiting)}`);
  for (const it of state.xbufs) rows.set(`xbuf ${it.xbuf}`, `in ${way_text(it.in)}; out ${way_text(it.out)}`);
  if (state.ready.length) rows.set('ready list', threads_text(state.ready));
  rows.set('out-of-band', stage_text(state.oob));
  rows.set('in-band', stage_text(state.inband));
  for (const it of state.timers) rows.set(`timer ${it.timer}`, timer_text(it));
  rows.set('date', `${state.date} ns`);
  return { threads, rows };
}
/** So many changes are read out; of more only how many there are. */
const MOST_SAID = 8;
/**
 * What a step changed in a table, in a few words, for those who hear the page.
 * @typedef {{ threads: string[][], rows: string[][] }} Table
 * @param {Table} at @param {Table} before @param {string[]} columns @param {number} step
 */
export function changes_text(at, before, columns, step) {
  const were = new Map(before.threads.map(it => [it[0], it])), had = new Map(before.rows.map(([of, says]) => [of, says]));
  const threads = at.threads.flatMap(row => row.flatMap((text, i) =>
    i && were.get(row[0])?.[i] !== text ? [`${row[0]} ${columns[i]} ${text || 'none'}`] : []));
  const rows = at.rows.filter(([of, says]) => had.get(of) !== says).map(([of, says]) => `${of}: ${says}`);
  const gone = before.rows.filter(([of]) => !at.rows.some(it => it[0] === of)).map(([of]) => `${of}: none`);
  const all = [...threads, ...rows, ...gone];
  if (!step) return 'At the start';
  return `Step ${step}: ${all.length > MOST_SAID ? `${all.length} changes` : all.join('; ') || 'nothing changed'}`;
}
