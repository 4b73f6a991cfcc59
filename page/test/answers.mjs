// Answers to the exercises of the page, and to two that a teacher may make, each with how it has to be judged: good, bad, or
// unknown, which is right by half. The modules' tests judge them by Node, checks/page by the page's own button.
import fs from 'node:fs';

const read = JSON.parse(fs.readFileSync(new URL('../exercises.json', import.meta.url), 'utf8'));
/** The page's exercises, as the page has them. */
export const EXERCISES = read.map(it => ({ ...it, text: it.text.join('\n') + '\n', solution: it.solution.join('\n') + '\n',
  question: it.question.join(' '), ...it.ask ? { ask: it.ask.join('\n') + '\n' } : {} }));
const [CHAIN, ARRIVALS, LOCKS, STAX] = EXERCISES.map(it => it.text), HOLE_LINE = '# your steps here';
const table = it => '[[step]]\n' + Object.entries(it).map(([key, value]) => `${key} = ${JSON.stringify(value)}\n`).join('');
const tables = (who, calls) => calls.map(([call, sem]) => table({ do: call, who, ...sem === undefined ? {} : { sem } })).join('\n');

const claim = { do: 'claim', who: 4, mutex: 1, owner: 2 };
const CHAIN_LINES = 'board threads=5 mutexes=[normal, normal]\nT1 attach policy=fifo 10 stage=oob\nT2 attach policy=fifo 20 stage=oob\n'
  + 'T2 claim owner=1 mutex=0\nT4 attach policy=fifo 40 stage=oob\nT0 rank_of thread=1\nT4 claim mutex=1 owner=2\nT0 rank_of thread=1\n';
const of_chain = [
  ['the claim', CHAIN.replace(HOLE_LINE, table(claim)), 'good'],
  ['the claim, of another owner', CHAIN.replace(HOLE_LINE, table({ ...claim, owner: 1 })), 'bad'],
  ['a claim of mutex 0', CHAIN.replace(HOLE_LINE, table({ ...claim, mutex: 0, owner: 1 })), 'bad'],
  ['the claim with a deadline', CHAIN.replace(HOLE_LINE, table({ ...claim, until: 1000 })), 'good'],
  ['the claim with a comment and its keys in another order',
    CHAIN.replace(HOLE_LINE, '[[step]] # mine\n  do   = "claim"\nowner = 2\nmutex = 1\nwho = 4\n'), 'good'],
  ['the claim at the end', `${CHAIN}\n${table(claim)}`, 'bad'],
  ['the claim between two looks', CHAIN.replace(HOLE_LINE, table({ do: 'pick', who: 0 }) + table(claim) + table({ do: 'pick', who: 0 })), 'good'],
  ['no step', CHAIN, 'bad'],
  ['the claim, as lines', CHAIN_LINES, 'good'],
  ['the claim, as lines, and another policy', CHAIN_LINES.replace('fifo 20', 'fifo 30'), 'bad']];
const of_arrivals = [
  ['the solution', EXERCISES[1].solution, 'good'],
  ['stall', ARRIVALS.replace('____', 'stall'), 'bad'],
  ['unstall with a comment', ARRIVALS.replace('do = "____"', 'do = "unstall"   # opens it again'), 'good'],
  ['one peek more', `${EXERCISES[1].solution}\n${table({ do: 'peek', who: 0, sem: 0 })}`, 'bad'],
  ['an arrival taken out', EXERCISES[1].solution.replace(`${table({ do: 'arrive', who: 0, line: 7 })}\n`, ''), 'bad'],
  ['unstall with a callback of its own', EXERCISES[1].solution, 'bad', '[[callback]]\n\n[[callback]]\ndo = [{ post_sem = 0 }]\n'],
  ['nothing', ARRIVALS, 'bad']];

const before = LOCKS.slice(0, LOCKS.indexOf('# T2: mend these')), PUTS = [['put', 0], ['put', 1]];
const get = (/** @type {number} */ sem) => [['begin_get', sem], ['finish']];
const t2 = (...calls) => before + tables(2, calls.flat());
const of_locks = [
  ['T2 in the order of T1', EXERCISES[2].solution, 'good'],
  ['T2 makes no step', before, 'bad'],
  ['T2 takes lock 1 alone', t2(get(1), [['put', 1]]), 'bad'],
  ['two of each lock', LOCKS.replace('sems = [1, 1]', 'sems = [2, 2]'), 'bad'],
  ['T2 gives back before it takes', t2(PUTS, get(1), get(0)), 'bad'],
  ['T2 gives lock 1 back before it takes 0', t2(get(1), [['put', 1]], get(0), [['put', 0]]), 'unknown'],
  ['T2 is not attached', LOCKS.replace(table({ do: 'attach', who: 2, policy: 'fifo 10', stage: 'oob' }).replace('step', 'setup'), ''), 'bad'],
  ['a question of its own', LOCKS.replace('always_ends = true', 'as_picked = true'), 'bad'],
  ['one more put is set up', LOCKS.replace('[ask]', `${table({ do: 'put', who: 0, sem: 0 }).replace('step', 'setup')}\n[ask]`), 'bad'],
  ['T2 keeps lock 1', t2(get(0), get(1), [['put', 0]]), 'bad'],
  ['T1 is changed in place of T2',
    LOCKS.replace(/who = 1\nsem = 0/, 'who = 1\nsem = 9').replace(/who = 1\nsem = 1/, 'who = 1\nsem = 0').replace('sem = 9', 'sem = 1'), 'unknown'],
  ['a limit', `limit = 3\n${LOCKS}`, 'bad'],
  ['a deadline that no tick reaches', LOCKS.replace(/who = 2\nsem = 0/, 'who = 2\nsem = 0\nuntil = 50'), 'bad'],
  ['try_get in place of a wait', t2(get(1), [['try_get', 0]], PUTS), 'bad'],
  ["T2's steps are T1's", LOCKS.split('# T2: mend these').map((part, i) => i ? part.replaceAll('who = 2', 'who = 1') : part).join(''), 'bad'],
  ['T0 puts both', `${EXERCISES[2].solution}\n${tables(0, PUTS)}`, 'bad'],
  ['a wait begun within another', t2([['begin_get', 0], ['begin_get', 1], ['finish'], ['finish']], PUTS), 'bad'],
  ['nobody takes a lock', LOCKS.slice(0, LOCKS.indexOf('[[step]]')), 'bad']];
const of_stax = [
  ['unlock_stax', EXERCISES[3].solution, 'good'],
  ['unlock_stax, as tables with the keys in another order', `[board]\nstaxes = [ 2 ]\nthreads = 4\n${[...EXERCISES[3].solution
    .matchAll(/\{ (.*) \}/g)].map(it => `[[step]]\n${it[1].split(', ').reverse().join('\n')}\n`).join('')}`, 'good'],
  ['unlock_mutex_fast', STAX.replace('____', 'unlock_mutex_fast'), 'bad'],
  ['try_unlock_mutex', STAX.replace('____', 'try_unlock_mutex'), 'bad'],
  ['three may hold the stax', EXERCISES[3].solution.replace('staxes = [2]', 'staxes = [3]'), 'bad'],
  ['one step more', EXERCISES[3].solution.replace(']\n[board]', '  { do = "now", who = 0 },\n]\n[board]'), 'bad']];

/** One that a teacher made of a text of lines: the hole is a call with its keys. */
const LINES = 'board threads=4 mutexes=[normal]\nT1 attach policy=fifo 10 stage=oob\nT3 attach policy=fifo 30 stage=oob\nT3 ____\n'
  + 'T2 attach policy=fifo 20 stage=oob\nT0 pick\nT0 tick delta=1000000\nT1 release mutex=0\nT3 finish\nT0 pick\n';
const whole = LINES.replace('____', 'claim mutex=0 owner=1');
export const OF_LINES = { title: 'Who lends T1 its rank?', question: '', text: LINES, solution: whole, check: 'trace' };
const AS_TABLES = `limit = 1000\n\n[board]\nthreads = 4\nsems = []\nmutexes = ["normal"]\n\n${whole.split('\n').slice(1, -1).map(line => {
  const [, who, word, keys] = line.match(/^T(\d) (\w+) ?(.*)$/) || [];
  const pairs = keys.split(/ (?=\w+=)/).filter(Boolean).map(it => it.split('=')).map(([key, is]) => [key, /^\d+$/.test(is) ? +is : is]);
  return table({ do: word, who: +who, ...Object.fromEntries(pairs) });
}).join('\n')}`;
const of_lines = [
  ['the claim', whole, 'good'],
  ['the claim with its usual deadline', LINES.replace('____', 'claim mutex=0 owner=1 until=none'), 'good'],
  ['its keys in another order', LINES.replace('____', 'claim owner=1 mutex=0'), 'good'],
  ['another owner', LINES.replace('____', 'claim mutex=0 owner=2'), 'bad'],
  ['a deadline', LINES.replace('____', 'claim mutex=0 owner=1 until=500'), 'bad'],
  ['as tables', AS_TABLES, 'good'],
  ['as tables, T2 of another policy', AS_TABLES.replace('fifo 20', 'fifo 21'), 'bad'],
  ['a comment', whole.replace('tick delta=1000000', 'tick delta=1000000   # 1 ms'), 'good'],
  ['the keys of the board in another order', whole.replace('threads=4 mutexes=[normal]', 'mutexes=["normal"]  threads=4'), 'good'],
  ['blank lines', whole.replace('T2 attach', '\n\n  T2 attach'), 'good'],
  ['a mutex more', whole.replace('[normal]', '[normal, normal]'), 'bad'],
  ['two lines changed about', whole.replace('T0 pick\nT0 tick delta=1000000\n', 'T0 tick delta=1000000\nT0 pick\n'), 'bad']];
/** One with two holes, which all orders have to answer. */
const HOLES = LOCKS.replace(/(who = 2\nsem = )1/, '$1____').replace(/(who = 2\nsem = )0/, '$1____');
const filled = (/** @type {(string | number)[]} */ ...parts) => HOLES.replace(/____/g, () => `${parts.shift()}`);
export const OF_ORDERS = { title: 'Two locks by holes', question: '', text: HOLES, solution: filled(0, 1), check: 'ask', ask: '[ask]\nalways_ends = true' };
const of_orders = [
  ['0 and 1', filled(0, 1), 'good'],
  ['1 and 0', filled(1, 0), 'bad'],
  ['one alone', filled(0, 0), 'bad'],
  ['two puts by T0 besides', `${filled(1, 0)}\n${tables(0, PUTS)}`, 'bad'],
  ['a deadline in a hole, and a tick', `${filled(1, '0\nuntil = 9')}\n${table({ do: 'tick', who: 0, delta: 10 })}`, 'bad'],
  ['a deadline in a hole', filled(0, '1\nuntil = 9'), 'bad'],
  ['a question of its own', filled(1, 0).replace('always_ends = true', 'as_picked = true'), 'bad'],
  ['a question that the program warns of', filled(0, 1).replace('do = "finish"\nwho = 2\n\n[[step]]\ndo = "put"', 'do = "put"'), 'bad']];
/** One with two checks: lines as they were copied from the trace, and a table [ask]. */
const PUTS_TEXT = `[board]\nthreads = 2\nsems = [0]\n\n${table({ do: 'peek', who: 0, sem: 0 })}\n${HOLE_LINE}\n`;
export const OF_BOTH = { title: 'Two puts', question: '', text: PUTS_TEXT, solution: '', check: ['lines', 'ask'],
  lines: ['2 T0 put sem=0 -> done', '  - T0 put sem=0 -> done'], ask: '[ask]\nsometimes = ["sem 0 count = 3"]' };
const puts = (/** @type {number} */ count) => PUTS_TEXT.replace(HOLE_LINE, tables(0, Array(count).fill(['put', 0])));
const of_both = [['two', puts(2), 'bad'], ['three', puts(3), 'good'], ['one of three by T1', puts(3).replace(/who = 0(?=\nsem = 0\n$)/, 'who = 1'), 'good'],
  ['three, two of them by T1', puts(3).replace(/who = 0(?=\nsem = 0\n\n\[\[step\]\]\ndo = "put"\nwho = 0\nsem = 0\n\s*$)/, 'who = 1').replace(/who = 0(?=\nsem = 0\n\s*$)/, 'who = 1'), 'bad']];
/** @type {[any, any[][]][]} */
const ALL = [[EXERCISES[0], of_chain], [EXERCISES[1], of_arrivals], [EXERCISES[2], of_locks], [EXERCISES[3], of_stax],
  [OF_LINES, of_lines], [OF_ORDERS, of_orders], [OF_BOTH, of_both]];
/** Each answer with its exercise, what it is, its text and callbacks, and how it has to be judged. */
export const ANSWERS = ALL.flatMap(([exercise, answers]) =>
  answers.map(([what, text, wanted, bank = '']) => ({ exercise, what: `${exercise.title}: ${what}`, text, bank, wanted })));
