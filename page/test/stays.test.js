// node --test test/: what of an exercise has to stay, and what comes in the place of its holes.
import assert from 'node:assert/strict';
import test from 'node:test';
import { parts_of, rules_trouble, step_of_line, whole_trouble } from '../js/stays.js';

/** What is usual for the calls of these tests. @type {import('../js/stays.js').Usual} */
const usual = (word, key) => key === 'until' ? 'none' : word === 'finish' && key === 'keep' ? 'false' : undefined;
const whole = (given, answer) => whole_trouble(parts_of(given), parts_of(answer), usual);
const lines = (text, hole = '') => `board threads=3 sems=[1, 1]\nsetup T1 attach policy=fifo 10 stage=oob\n${hole}${text}`;

test('tables, a list, and lines have one board and the same steps', () => {
  const forms = ['limit = 9\n[board]\nsems = [1,\n 2, ] # two\nthreads = 3\n[[setup]]\nwho = 1\npolicy = "fifo 10"\ndo = "attach"\n[[step]]\ndo = "put"\n\nwho = 0\nsem = 1\n',
    'limit = 9\nboard = { threads = 3, sems = [ 1, 2 ] }\nsetup = [{ do = "attach", who = 1, policy = \'fifo 10\' }]\nstep = [\n  { do = "put", who = 0, sem = 1 },\n]\n',
    'T0 put sem=1\nboard sems=[1,2] threads=3\nlimit 9\nsetup T1 attach policy="fifo 10"\n'];
  const [first, ...others] = forms.map(parts_of).map(it => [[...it.board].sort(), it.steps.map(step => ({ ...step, keys: [...step.keys] }))]);
  assert.deepEqual(first[0], [['limit', '9'], ['sems', '[1, 2]'], ['threads', '3']]);
  for (const it of others) assert.deepEqual(it, first);
});
test('what is usual, an expected answer, and the number of a step make no difference', () => {
  assert.equal(whole('board threads=2\nT1 begin_get sem=0\n', '[board]\nthreads = 2\n[[step]]\nsem = 0\ndo = "begin_get"\nuntil = "none"\nwho = 1\nexpect = "begun"\n'), '');
  assert.equal(whole('board threads=2 flags=[]\nT1 finish keep=false\n', 'board threads=2 limit=1000\n7 T1 finish -> done\n'), '');
  assert.match(whole('board threads=2\nT1 finish\n', 'board threads=2\nT1 finish keep=true\n'), /^This step of the exercise has to stay: T1 finish$/);
  assert.equal(whole('board threads=2 sems=[0]\n', 'board threads=2\n'), 'The board of the exercise has to stay: sems=[0]');
  assert.equal(whole('board threads=2\n', 'board threads=2 limit=3\n'), 'The board of the exercise has to stay: limit=1000');
});
test('a hole holds one value, and a gap any steps', () => {
  const put = 'T0 put sem=1\n', value = lines('T0 put sem=____\n');
  assert.equal(whole(value, lines(put)), '');
  assert.match(whole(value, lines(`${put}T0 pick\n`)), /may not be added: T0 pick/);
  assert.match(whole(value, lines('T0 put sem=1 until=9\n')), /has to stay: T0 put sem=____/);
  assert.match(whole(lines('T0 begin_get sem=____\n'), lines('T0 begin_get sem=1 until=9\n')), /has to stay/);
  assert.equal(whole(lines('T0 begin_get sem=1 until=____\n'), lines('T0 begin_get sem=1\n')), '');
  assert.equal(whole(lines('T0 ____ sem=1\n'), lines('T0 put sem=1\n')), '');
  assert.equal(whole(lines('T____ attach policy=fifo ____ stage=oob\n'), lines('T2 attach policy=fifo 30 stage=oob\n')), '');
  assert.equal(whole('board threads=3 sems=[____, 1]\n', 'board threads=3 sems=[4, 1]\n'), '');
  assert.match(whole('board threads=3 sems=[____, 1]\n', 'board threads=3 sems=[4, 2]\n'), /has to stay: sems=\[____, 1\]/);
  for (const steps of ['', 'T0 pick\n', 'T0 pick\nT0 put sem=1\nT1 finish\n'])
    assert.equal(whole(lines(put, '# your steps here\n'), lines(steps + put)), '', steps);
  assert.match(whole(lines(put, '# your steps here\n'), lines(`T0 pick\n${put}T1 pick\n`)), /has to stay|may not be added: T1 pick/);
});
test('a gap is found among tables, in a list, and right below a key', () => {
  const put = '[[step]]\ndo = "put"\nwho = 0\nsem = 1\n', pick = '[[step]]\ndo = "pick"\nwho = 0\n', hole = '# your steps here\n';
  assert.equal(whole(`${pick}\n${hole}\n${put}`, `${pick}${pick}${put}`), '');
  assert.match(whole(`${pick}\n${hole}\n${put}`, `${pick}${put}${pick}`), /has to stay|may not be added/);
  assert.equal(whole(`step = [\n { do = "pick", who = 0 },\n ${hole} { do = "put", who = 0, sem = 1 },\n]\n`, `${pick}${pick}${put}`), '');
  assert.equal(whole(`[[step]]\ndo = "put"\n${hole}who = 0\n${pick}`, `${put}${pick}`), '');
  assert.match(whole(`[[step]]\ndo = "put"\n${hole}who = 0\n${pick}`, `${put}${pick}${pick}`), /may not be added/);
});
test('what is added or moved is named', () => {
  const given = 'board threads=1\nT0 now\nT0 pick\nT0 peek sem=0\n';
  assert.equal(whole(given, given.replace('T0 pick', 'T0 stall stage=oob\nT0 pick')), 'This step may not be added: T0 stall stage=oob');
  assert.equal(whole(given, given.replace('T0 now\nT0 pick', 'T0 pick\nT0 now')), 'This step of the exercise has to stay in its place: T0 now');
  assert.equal(whole(given, given.replace('T0 pick\n', '')), 'This step of the exercise has to stay: T0 pick');
});
test('rules name what stays, which calls are made, and which comes after which', () => {
  const given = parts_of(lines('T1 put sem=0\nT2 begin_get sem=0\nT2 finish\nT2 put sem=0\n'));
  const rules = { stays: ['board', 'setup', 'T1'], calls: { T2: ['begin_get sem=0', 'finish', 'put sem=0'] }, then: [['T2 begin_get', 'T2 put sem=0']] };
  const trouble = text => rules_trouble(rules, given, parts_of(text), usual), own = 'T1 put sem=0\n', begin = 'T2 begin_get sem=0\n', end = 'T2 finish\n', put = 'T2 put sem=0\n';
  assert.equal(trouble(lines(begin + end + own + put)), '');
  assert.equal(trouble(lines(begin + put + end + own)), '');
  assert.equal(trouble(lines(put + begin + end + own)), 'T2 put sem=0 has to come after T2 begin_get.');
  assert.equal(trouble(lines(begin + own + put)), 'T2 finish has to be there once, and is there not at all.');
  assert.equal(trouble(lines(begin + end + own + put + put)), 'T2 put sem=0 has to be there once, and is there 2 times.');
  assert.equal(trouble(lines(begin + end + own + put + 'T2 pick\n')), 'This step may not be added: T2 pick');
  assert.equal(trouble(lines(begin + end + put)), 'This step of the exercise has to stay: T1 put sem=0');
  assert.match(trouble(lines(begin + end + own + put).replace('[1, 1]', '[2, 1]')), /^The board/);
  assert.match(trouble(lines(begin + end + own + put, 'setup T2 attach policy=fifo 10 stage=oob\n')), /^This step may not be added: setup T2/);
});
test('a line is read with its number, its answer and blanks in its values', () => {
  const it = step_of_line('12 T3 attach policy=fifo 10 stage=oob -> done');
  assert.deepEqual([it.who, it.word, [...it.keys]], ['3', 'attach', [['policy', 'fifo 10'], ['stage', 'oob']]]);
  assert.deepEqual([...step_of_line('T0 write xbuf=0 way=out bytes=-').keys], [['xbuf', '0'], ['way', 'out'], ['bytes', '-']]);
});
