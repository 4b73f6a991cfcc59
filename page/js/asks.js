// What the page asks of the program, all in one place: each view is a run of its own, of 1 to 10 ms. Nothing else of
// the page knows the program's words, so this module can be exchanged for one over other forms of its answers.
import { read_calls, read_found, read_notices, read_refused, read_report, read_trace, why_of, FILE, BANK } from './reads.js';
import { Runner } from './program.js';
import { read_states } from './states.js';
import { parts_of, step_of_line } from './stays.js';
import { first_steps, has_callers, is_lines, kind_of, scenario_of, steps_of } from './text.js';

/** @typedef {{ kind: string, text: string, bank: string, turns?: string[] }} Text */
export const ORDERS_SECONDS = 60;
/** @type {Runner} One worker for what is short. */
let short;
/** @type {Runner} One for what is asked beside that: pictures and faults. */
let side;
/** @type {Runner[]} Two for orders, so that an edit is answered while orders are gone through: what is found, and warnings. */
let long = [];
export function begin_program(/** @type {Uint8Array} */ code) {
  short = new Runner(code);
  side = new Runner(code);
}
export const stop_orders = (/** @type {string} */ why) => long.forEach(it => it.stop(why));
/** Ends what is played, drawn and checked. */
export const stop_runs = (/** @type {string} */ why) => { short.stop(why); side.stop(why); };
/** @param {string[]} words @param {string} text */
export const run = (words, text) => short.ask([...words, FILE], { [FILE]: text });

const over = (/** @type {Text} */ it) => it.bank.trim() ? ['--bank', BANK] : [];
const files_of = (/** @type {Text} */ it) => ({ [FILE]: it.text, [BANK]: it.bank });
const part_words = (/** @type {Text} */ it) => it.turns ? ['orders', ...it.turns] : [it.kind === 'callers' ? 'callers' : 'play'];

/** A run that was stopped is no answer, and is reported. @param {string} what @param {string} why */
const left_out = (what, why) =>
  ({ fault: false, column: 0, where: '', says: `the text was not ${what}: ${why.trim()}` });
/** Faults of a text and of its callbacks, and warnings where both are well. @param {Text} it */
export async function checked(it) {
  if (it.kind === 'empty') return [];
  const files = files_of(it), bank = over(it), is_bank = it.kind === 'bank';
  const check = (/** @type {string[]} */ words) => side.ask(['check', '--json', ...words], files);
  const own = bank.length && !is_bank ? await check([BANK]) : { status: 0, out: '', err: '' };
  const answer = await check([FILE, ...own.status || is_bank ? [] : bank]);
  const stopped = [own, answer].find(told => told.status === -2);
  if (stopped) return [left_out('checked', stopped.err)];
  const told = [...read_notices(own.out + answer.out, it.text, steps_of(it.text), it.bank),
    ...read_refused(own.err + answer.err, it.text)];
  // Of orders the one in the text is no matter.
  return told.filter(found => found.fault || !own.status && it.kind !== 'orders');
}
/**
 * The schedule of a task set: its chart and its report, with the bounds of theory, or why there is none. A run that is cut off
 * has both too, and says why; so does one of which something asked isn't so. A run that was stopped is reported.
 * @param {Text} it
 */
export async function schedule_of(it) {
  const ask = (/** @type {string} */ form) => short.ask(['run', form, FILE, ...over(it)], files_of(it));
  const [chart, report] = [await ask('--svg'), await ask('--bound')], is_run = [0, 1, 5].includes(report.status);
  const why = report.status && report.status !== 2 && !report.err ? [left_out('run', 'it ended early')] : [];
  const refused = report.status === -2 ? [left_out('run', report.err)]
    : read_refused(report.err, it.text).map(told => ({ ...told, fault: !is_run }));
  return { chart: is_run ? chart.out : '', report: is_run ? report.out : '', is_run,
    told: [...chart.status === -2 ? [left_out('drawn', chart.err)] : [], ...refused, ...is_run ? [] : why] };
}
/** A scenario in its other form, of lines or of tables, or why there is none. @param {string} text */
export async function converted(text) {
  const words = ['convert', is_lines(text) ? '--toml' : '--lines', FILE];
  const { status, out, err } = await short.ask(words, { [FILE]: text });
  return status ? { text: '', why: read_refused(err, text)[0]?.says || err } : { text: out, why: '' };
}
/** @param {Text} it */
export async function played(it) {
  const answer = await short.ask([...part_words(it), FILE, ...over(it)], files_of(it));
  const told = answer.status === -2 ? [left_out('played', answer.err)]
    : answer.status ? read_refused(answer.err, it.text) : [];
  return { ...answer, entries: read_trace(answer.out), told };
}
/**
 * A page of the picture, whose time goes down, across, or by its length; of callers of whom a step can't be made it is
 * that of the lines before it, with no strips; of atomic steps that of their lines.
 * @param {Text} it @param {Promise<{ out: string }>} trace @returns {Promise<import('./program.js').Answer>}
 */
export async function drawn(it, trace, way = '', page = 1) {
  const words = ['draw', ...way ? [`--${way}`] : [], ...page > 1 ? ['--page', `${page}`] : []];
  const none = { status: 0, out: '', err: '', ms: 0, memory: 0 };
  const whole = it.text && !it.turns ? await side.ask([...words, FILE, ...over(it)], files_of(it)) : none;
  if (!it.turns && (it.kind !== 'callers' || whole.status <= 0)) return whole;
  const text = (await trace).out;
  return text ? side.ask([...words, 'trace'], { trace: text }) : none;
}
/** A scenario's machine before its first step and after each; nothing where it doesn't play. @param {Text} it */
export async function machine_of(it) {
  const { out } = await short.ask(['play', '--states', FILE, ...over(it)], files_of(it));
  return out ? { ...it, states: read_states(out) } : null;
}
/**
 * How a callers' machine is after a step: the kernel's history up to there, which the program prints where a machine is
 * closed, played again as a text of lines. Nothing where the text cannot be cut there.
 * @param {any} it @param {number} step
 */
export async function callers_at(it, step) {
  const first = first_steps(it.text, it.entries, step);
  if (!first) return null;
  const { out } = await short.ask(['callers', FILE, ...over(it)], files_of({ ...it, text: first.text }));
  const [, history] = out.split(/^close -> done\n/m);
  if (history === undefined) return null;
  const board = await short.ask(['convert', '--lines', FILE], { [FILE]: first.board });
  const calls_made = history.split('\n').filter(line => /^\d+ T/.test(line)).join('\n');
  const machine = await machine_of({ ...it, kind: 'play', text: `${board.out}${calls_made}\n` });
  return machine?.states.pop() || null;
}
/**
 * What a driven machine answers to each of some lines, which come after the steps of the text.
 * @param {any} machine @param {string[]} lines
 */
export async function said(machine, lines) {
  const input = lines.map(line => `# .\n${line}\n`).join('');
  const { out } = await short.ask(['live', FILE, ...over(machine)], files_of(machine), input);
  return out.split(/^# \.\n/m).slice(1);
}

/**
 * What the report of orders warns of, which the JSON does not have. Where it is not known, that is a warning too.
 * @param {import('./program.js').Answer} report
 */
const doubts_of = report => [0, 1, 5].includes(report.status) ? read_report(report.out).doubts
  : [`its warnings are not known: ${why_of(report.err)}`];
/** Orders of atomic steps, which have no JSON: the program names the first outcome or state that is against what is asked. */
function found_in_report(/** @type {import('./program.js').Answer} */ report, /** @type {Text} */ it) {
  const found = read_report(report.out), [, of, first] = report.err.match(/(outcome|state) (\d+) is against/) || [];
  const with_verdict = (/** @type {string} */ kind) => (/** @type {any} */ one) => ({ ...one, against: of === kind && one.number === first,
    turns: [`--${kind}`, one.number], has_order: Boolean(one.order) });
  return { ...found, whole: report.status !== 5, outcomes_asked: null, first_alone: true,
    states: found.states.map(with_verdict('state')), outcomes: found.outcomes.map(with_verdict('outcome')), of: it };
}
const NOTHING_FOUND = { orders: '', whole: true, outcomes_asked: null, states: [], outcomes: [], doubts: [] };
/** Every order in which the callers may come. @param {Text} it @param {(text: string) => void} heard */
export async function gone_through(it, asks, heard) {
  if (!long.length) long = [new Runner(short.code), new Runner(short.code)];
  const ask = (/** @type {Runner} */ runner, /** @type {string[]} */ more, /** @type {any} */ hears) =>
    runner.ask(['orders', ...more, FILE, ...over(it)], files_of(it), '', ORDERS_SECONDS, hears);
  const asked = ask(long[1], [], heard), answer = await ask(long[0], ['--json'], undefined);
  const is_answered = [0, 1, 5].includes(answer.status) && answer.out, in_steps = /--json is for orders of whole calls/.test(answer.err);
  if (!is_answered && !in_steps)
    return { ...NOTHING_FOUND, ...answer, asks, told: answer.status > 1 ? read_refused(answer.err, it.text) : [] };
  const report = await asked;
  if (is_answered) return { ...read_found(answer.out), doubts: doubts_of(report), ...answer, asks, told: [], of: it };
  return { ...found_in_report(report, it), ...report, asks, told: report.status > 1 ? read_refused(report.err, it.text) : [] };
}
/** The scenario of an order of callers, or of the moment before their first step. @param {Text} it @param {any} found */
export async function scenario_in_order(it, found) {
  const how = found.order ? ['--order', found.order] : ['--state', found.number];
  return (await short.ask(['orders', ...how, FILE, ...over(it)], files_of(it))).out;
}
/** @type {Promise<ReturnType<typeof read_calls>> | null} */
let list_of_calls = null;
/** The list of calls, with their keys, values and answers. */
export const calls = () => list_of_calls ||= short.ask(['help', '--json']).then(({ out }) => read_calls(out));
/** Which value a key of a call has where it is left out. @returns {Promise<import('./stays.js').Usual>} */
export async function usual_values() {
  const list = await calls();
  return (word, key) => list.calls.get(word)?.keys.get(key)?.usual ?? (key === 'until' ? 'none' : undefined);
}
/**
 * A text's board and steps as the program reads them, those that are set up first, or why it can't be read. Of orders of
 * atomic steps it prints no steps: those are read here.
 * @param {string} text @returns {Promise<import('./stays.js').Parts & { why: string }>}
 */
export async function parts_read(text, bank = '') {
  const own = parts_of(text), kind = kind_of(text), refused = { ...own, steps: [] };
  if (kind === 'orders' && has_callers(text)) return { ...own, why: '' };
  if (kind === 'callers') {
    const { status, err, entries } = await played({ kind, text, bank });
    return status ? { ...refused, why: why_of(err) }
      : { ...own, steps: entries.filter(it => it.kind === 'entry').map(it => step_of_line(it.line)), why: '' };
  }
  const { status, err, out } = await short.ask(['convert', '--lines', FILE], { [FILE]: kind === 'orders' ? scenario_of(text) : text });
  if (status) return { ...refused, why: why_of(err) };
  const { board, steps } = parts_of(out), set_up = own.steps.filter(it => it.setup).length;
  return { board, steps: steps.map((it, n) => ({ ...it, setup: n < set_up })), why: '' };
}
