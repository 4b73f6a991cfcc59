// node --test test/: what is read of texts without the program.
import assert from 'node:assert/strict';
import fs from 'node:fs';
import path from 'node:path';
import test from 'node:test';
import { read_trace } from '../js/reads.js';
import { image_of } from '../js/orders.js';
import { has_words, ask_of, bare_of, first_steps, is_lines, kind_of, scenario_of } from '../js/text.js';
import { actions_of, passes_at, place_of_word, plays_at, steps_of, with_ask } from '../js/text.js';

const top = path.join(import.meta.dirname || path.dirname(new URL(import.meta.url).pathname), '../..');
const folder = name => ['examples', '.'].map(above => path.join(top, above, name)).find(it => fs.existsSync(it)) || '';
const texts = name => fs.readdirSync(folder(name)).filter(it => it.endsWith('.toml'))
  .map(it => [it, fs.readFileSync(path.join(folder(name), it), 'utf8')]);

test('the kind of each text of the repository is seen', () => {
  const kinds = { orders: 'orders', 'orders/steps': 'orders', scenarios: 'play', 'scenarios/lessons': 'play', banks: 'bank', callers: 'callers', tasks: 'tasks' };
  for (const [name, kind] of Object.entries(kinds)) {
    assert.ok(texts(name).length > 0, name);
    for (const [file, text] of texts(name)) assert.equal(kind_of(text), kind, file);
  }
});
test('a task set is seen in each form of TOML', () => {
  const texts = ['[[task]]\ndoes = ["run 1ms"]\n', 'task = [{ does = ["run 1ms"] }]\n', '[board]\nsems = [0]\n[[ task ]]\n', '# [[task]]\n[board]\nthreads = 1\n'];
  assert.deepEqual(texts.map(kind_of), ['tasks', 'tasks', 'tasks', 'play']);
});
test('a word that is typed on is no longer the word that was reported', () => {
  const cases = [['T1 finsh', 'finsh', 3, 3], ['T1 finsh2', 'fins', 3, -1], ['x = 3, lien = "lien"', 'lien', 0, 7],
    ['as = "a"', 'a', 0, 6], ['put', '', 0, -1], ['', '', 0, 0], ['T0 putt', 'putt', 9, -1]];
  for (const [line, word, from, at] of cases) assert.equal(place_of_word(line, word, from), at, line);
});
test('comments and quotes do not mislead', () => {
  assert.equal(kind_of('# [ask]\n[board]\nthreads = 1\n'), 'play');
  assert.equal(kind_of('[board]\n[[step]]\ndo = "put" # do = "take"\n'), 'play');
  assert.equal(bare_of('a = "#1" # no'), 'a = "#1" ');
  assert.equal(bare_of('a = "\\"#" # no'), 'a = "\\"#" ');
  assert.equal(kind_of(' \n# nothing\n'), 'empty');
});
test('callers are seen in each form of TOML, and orders of atomic steps by what orders alone have', () => {
  const step = '[[step]]\nwho = 0\n"do" = "take"\n', board = '[board]\nthreads = 1\n';
  assert.deepEqual([board + step, 'board = { threads = 1, staxes = [1] }\n', 'board.staxes = [1]\n', board + '[[step]]\ndo = "put"\n'].map(kind_of),
    ['callers', 'callers', 'callers', 'play']);
  assert.deepEqual([`${board}${step}lasts = true\n`, `${board}${step}[what_if]\nraise = "sets no mark"\n`, `${board}${step}# lasts = true\n`].map(kind_of), ['orders', 'orders', 'callers']);
});
test('texts of lines are seen by their first line that says anything', () => {
  const are = ['board threads=1', '\ufeffboard', ' # a\n\nlimit 5\n', 'T0 put sem=0', '3 T1 pick', 'setup T1 x'];
  const not = ['', '# T0 put', 'board = { threads = 1 }', 'limit=5', 'board.threads = 1', '[board]', 'T put', 'T0x put', '3'];
  for (const text of are) assert.ok(is_lines(text), text);
  for (const text of not) assert.ok(!is_lines(text), text);
  assert.deepEqual(['board threads=1\nT0 now\n', 'board\nsetup T1 now\n', 'board # setup T1\n'].map(kind_of),
    ['play', 'orders', 'play']);
});
test('the trace of each scenario is a text of lines, with a step for each entry', () => {
  for (const name of fs.readdirSync(folder('scenarios')).filter(it => it.endsWith('.trace'))) {
    const trace = fs.readFileSync(path.join(folder('scenarios'), name), 'utf8');
    const entries = read_trace(trace).filter(it => it.kind === 'entry').length;
    assert.deepEqual([kind_of(trace), steps_of(trace).length], ['play', entries], name);
  }
});
test('what is set up comes first among the steps of lines', () => {
  const text = 'board threads=2\nT0 now # setup\n\n  setup T1 now\n- T1 now -> HistoryFull\n  line 5 oob count 1\n';
  assert.deepEqual(steps_of(text).map(it => it.from), [3, 1, 4]);
});
test('steps are found as tables and in a list', () => {
  const tables = steps_of('[board]\n[[step]]\ndo = "put"\nwho = 0\n\n[[setup]]\nx = 1\n');
  assert.deepEqual(tables, [{ from: 1, to: 3 }, { from: 5, to: 6 }]);
  const list = steps_of('step = [\n { do = "a" }, { do = "b" },\n]\n');
  assert.deepEqual(list, [{ from: 1, to: 1 }, { from: 1, to: 1 }]);
});
test('[ask] is taken out and put in, line for line', () => {
  const text = '[board]\n[ask]\nalways_ends = true\n[[setup]]\ndo = "x"\n';
  assert.equal(ask_of(text), '[ask]\nalways_ends = true');
  assert.equal(with_ask(text, '[ask]\nnever = []'), '[board]\n[[setup]]\ndo = "x"\n\n[ask]\nnever = []\n');
});
test('a text of orders as a scenario has no setup and no [ask]', () => {
  assert.equal(scenario_of('[board]\n[ask]\nalways_ends = true\n[[setup]]\ndo = "x"\n[[ step ]]\n'), '[board]\n[[step]]\ndo = "x"\n[[ step ]]\n');
  assert.equal(scenario_of('board threads=1\nT0 now\nsetup T1 pick # first\n'), 'T1 pick # first\nboard threads=1\nT0 now\n');
});
test('a text of callers is cut after a step, with the core given back', () => {
  const text = 'limit = 9\nstep = [\n  { do = "take", who = 0 },\n]\n[board]\nthreads = 2 # two\nstaxes = [1]\n\n'
    + '[other]\nx = 1\n';
  const entries = read_trace('board threads=2\n1 T0 attach policy=fifo 10 stage=oob -> done\n'
    + '2 T1 try_lock_stax stax=0 as=7 -> 7 | stax 0: in-band, 1 holder\n3 T0 take -> done | core: taken by T0\n'
    + '4 T0 write xbuf=0 way=out bytes=0012 -> done\n5 T0 give -> done | core: free\n');
  const cut = first_steps(text, entries, 4);
  assert.equal(cut?.board, 'limit = 9\n[board]\nthreads = 2\n');
  assert.equal(cut?.text, 'limit = 9\n[board]\nthreads = 2\nstaxes = [1]\n'
    + '[[step]]\ndo = "attach"\nwho = 0\npolicy = "fifo 10"\nstage = "oob"\n'
    + '[[step]]\ndo = "try_lock_stax"\nwho = 1\nstax = 0\nas = "7"\n[[step]]\ndo = "take"\nwho = 0\n'
    + '[[step]]\ndo = "write"\nwho = 0\nxbuf = 0\nway = "out"\nbytes = "0012"\n[[step]]\ndo = "give"\nwho = 0\n');
  assert.ok(!first_steps(text, entries, 5)?.text.endsWith('do = "give"\nwho = 0\n[[step]]\ndo = "give"\nwho = 0\n'));
  assert.equal(first_steps('board = { threads = 1 }\n', entries, 1), null);
  assert.deepEqual([...passes_at(entries, 4)], [['7', 'T1']]);
});
test('a play has its callback, and the callback what it does', () => {
  const actions = actions_of(fs.readFileSync(path.join(folder('banks'), 'program.toml'), 'utf8'));
  assert.equal(actions.length, 8);
  assert.deepEqual([actions[0], actions[1], actions[6]], ['handles each event, and asks for nothing',
    'do = [{ post_sem = 0 }]', 'accepts = 2 do = [{ stop_timer = 0 }]']);
  const entries = read_trace('board threads=1\n1 T0 request line=8 stage=oob callback=1 tag=0 -> done\n'
    + '2 T0 request line=8 stage=oob callback=5 tag=0 -> Busy\n3 T0 new_timer callback=2 tag=0 -> number 0\n'
    + '4 T0 arrive line=8 -> done\n  line 8 oob count 1 handled\n5 T0 tick delta=9 -> done\n  clock\n'
    + '  timer 0 count 1 missed 0 none\n  line 9 oob count 1 spurious\n');
  assert.deepEqual(plays_at(entries, 3), []);
  assert.deepEqual(plays_at(entries, 4), [{ of: 'line 8 oob', callback: 1 }]);
  assert.deepEqual(plays_at(entries, 5), [{ of: 'timer 0', callback: 2 }]);
});
test('lessons are sought by all words of title, text, story and question', () => {
  const it = { title: 'Two locks', text: 'do = "claim"', story: '<p>A deadlock</p>', exercise: { question: 'Who waits?' } };
  for (const asked of ['', 'lock', 'CLAIM two', 'deadlock waits']) assert.ok(has_words(it, asked), asked);
  assert.ok(!has_words(it, 'claim mutex') && !has_words({ title: 'x', text: 'y' }, 'z'));
});
test('a picture of an outcome is an image by itself', () => {
  assert.equal(image_of('<svg id="a">#</svg>', 'Outcome "1"'),
    '<img src="data:image/svg+xml,%3Csvg%20id%3D%22a%22%3E%23%3C%2Fsvg%3E" alt="Outcome &#34;1&#34;" loading="lazy">');
});
