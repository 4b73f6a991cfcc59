// What can be read of a text without the program: its kind, where its steps are, and its table [ask].

/**
 * The words of a machine's callers, each with its keys; the program's list of calls has those of a kernel.
 * @type {Record<string, string[]>}
 */
export const CALLERS_WORDS = { try_lock_stax: ['stax', 'as'], unlock_stax: ['pass'], try_lock_mutex: ['mutex', 'as'],
  begin_lock_mutex: ['mutex', 'until', 'as'], finish_lock_mutex: ['as'], try_unlock_mutex: ['pass'],
  unlock_mutex_fast: ['pass'], take: [], give: [] };
/** @type {Record<string, string>} */
export const KINDS = { play: 'scenario', orders: 'orders', callers: 'callers', tasks: 'task set', bank: 'callbacks', empty: 'empty' };

/** A line without its comment; a # in quotes begins none. @param {string} line */
export function bare_of(line) {
  let quoted = '';
  for (let i = 0; i < line.length; i++) {
    const c = line[i];
    if (quoted) {
      if (c === '\\' && quoted === '"') i++;
      else if (c === quoted) quoted = '';
    } else if (c === '"' || c === "'") quoted = c;
    else if (c === '#') return line.slice(0, i);
  }
  return line;
}

/**
 * Where a word stands by itself in a line, from a place on; -1 where it does not, or is a part of a longer one.
 * @param {string} line @param {string} word @param {number} from
 */
export function place_of_word(line, word, from) {
  const beside = (/** @type {number} */ at) => (line[at - 1] || '') + (line[at + word.length] || '');
  let at = line.indexOf(word, from);
  while (at >= 0 && /\w/.test(beside(at))) at = at < line.length ? line.indexOf(word, at + 1) : -1;
  return at;
}

const LINES = /^(T\d+(\s|$)|\d+\s+T\d+(\s|$)|(board|limit|setup)(\s+[^=\s]|\s*$))/;
/** Whether a text is one of lines, as `T0 put sem=0`, by its first line that says something. @param {string} text */
export function is_lines(text) {
  const first = text.replace(/^\ufeff/, '').split('\n').find(line => /^\s*[^\s#]/.test(line));
  return LINES.test(first?.trim() || '');
}
/** A line of a text of lines with no comment. @param {string} line */
export const said_of = line => line.replace(/(^|\s)#.*/, '').trim();
const CALLERS_WORD = new RegExp(`\\bdo["']?\\s*=\\s*["'](${Object.keys(CALLERS_WORDS).join('|')})["']`);
/** Whether a text has staxes, or words that a machine's callers alone have: its orders are of atomic steps. @param {string} text */
export const has_callers = text => text.split('\n').map(line => bare_of(line).trim())
  .some(line => /(^|[{,.]\s*)["']?staxes["']?\s*=/.test(line) || CALLERS_WORD.test(line));
/** @param {string} text */
export function kind_of(text) {
  if (is_lines(text)) return text.split('\n').some(line => /^setup\s+[^=]/.test(said_of(line))) ? 'orders' : 'play';
  const lines = text.split('\n').map(line => bare_of(line).trim()).filter(Boolean), whole = lines.join('\n');
  const has = (/** @type {RegExp} */ form) => form.test(whole);
  if (!lines.length) return 'empty';
  if (has(/^\[\[\s*task\s*\]\]|^task\s*=/m)) return 'tasks';
  const scenario = has(/^\[\s*board\s*\]|^\[\[\s*(step|setup)\s*\]\]|^(step|setup|board)\b\s*[=.]/m);
  if (!scenario && has(/^\[\[\s*callback\s*\]\]|^callback\s*=/m)) return 'bank';
  if (has(/^\[\s*ask\s*\]|^ask\s*[=.]|^\[\[\s*setup\s*\]\]|^setup\s*=/m)) return 'orders';
  if (!has_callers(whole)) return 'play';
  return has(/^\[\s*what_if\s*\]|(^|[{,]\s*)lasts\s*=/m) ? 'orders' : 'callers';
}

/** The line of each step of a text of lines: what is set up comes first. @param {string} text */
function lines_steps(text) {
  const lines = text.split('\n').map((line, i) => ({ from: i, to: i, says: said_of(line) }));
  const of = (/** @type {RegExp} */ form) =>
    lines.filter(it => form.test(it.says)).map(({ from, to }) => ({ from, to }));
  return [...of(/^setup\s+[^=]/), ...of(/^((\d+|-)\s+)?T\d+\s/)];
}
/** The first and the last line of each step of a text, by its form. @param {string} text */
export function steps_of(text) {
  if (is_lines(text)) return lines_steps(text);
  /** @type {{ from: number, to: number }[]} */
  const found = [];
  /** @type {{ from: number, to: number } | null} */
  let table = null;
  text.split('\n').forEach((line, i) => {
    const bare = bare_of(line).trim();
    if (/^\[\[\s*(step|setup)\s*\]\]/.test(bare)) found.push(table = { from: i, to: i });
    else if (/^\[\[?\s*\w+\s*\]/.test(bare)) table = null;
    else if (table && bare) table.to = i;
    else if (!table) for (const _ of bare.matchAll(/\{\s*(do|who)\s*=/g)) found.push({ from: i, to: i });
  });
  return found;
}

/** Whether each line is one of the table [ask]. @param {string[]} lines */
function asks_in(lines) {
  let asks = false;
  return lines.map(line => {
    const bare = bare_of(line).trim();
    if (/^\[/.test(bare)) asks = /^\[\s*ask\s*\]/.test(bare);
    return asks;
  });
}

/** The lines of [ask]. @param {string} text */
export function ask_of(text) {
  const lines = text.split('\n'), asks = asks_in(lines);
  return lines.filter((line, i) => asks[i] && bare_of(line).trim()).join('\n');
}
/** A text with another table [ask]. @param {string} text @param {string} wanted */
export function with_ask(text, wanted) {
  const lines = text.split('\n'), asks = asks_in(lines);
  return lines.filter((_, i) => !asks[i]).join('\n').trimEnd() + '\n\n' + wanted + '\n';
}

/** A text of orders as a scenario: what is set up are its first steps, and nothing is asked. @param {string} text */
export function scenario_of(text) {
  const lines = text.split('\n'), asks = asks_in(lines), is_set_up = (/** @type {string} */ line) => /^setup\s+[^=]/.test(said_of(line));
  const plain = (/** @type {string} */ line) => line.replace(/^\s*setup\s+/, '');
  if (is_lines(text)) return [...lines.filter(is_set_up).map(plain), ...lines.filter(line => !is_set_up(line))].join('\n');
  return lines.filter((_, i) => !asks[i]).map(line => line.replace(/^(\s*\[\[\s*)setup(\s*\]\])/, '$1step$2')).join('\n');
}

/** The value of a key of a trace, as a text writes it. @param {string} key @param {string} value */
function value_of(key, value) {
  if (key === 'bytes') return `"${value === '-' ? '' : value}"`;
  const bare = /^(\d{1,18}|true|false)$/.test(value) && key !== 'as' && key !== 'pass';
  return bare ? value : `"${value}"`;
}
/** Keys as a trace has them, one by one. @param {string} keys */
export const keys_of = keys => keys.split(/ (?=\w+=)/).filter(Boolean).map(it => it.split('=', 2));
/** A limit and the table [board] of a text; nothing where it has none. @param {string} text @param {boolean} plain */
function board_of(text, plain) {
  const lines = text.split('\n').map(line => bare_of(line).trimEnd());
  const limit = lines.find(line => /^limit\s*=/.test(line));
  const from = lines.findIndex(line => /^\[\s*board\s*\]/.test(line));
  if (from < 0) return '';
  const rest = lines.slice(from + 1), till = rest.findIndex(line => /^\s*\[\[?\s*\w+\s*\]/.test(line));
  const own = rest.slice(0, till < 0 ? rest.length : till).filter(line => line && !(plain && /^staxes\s*=/.test(line)));
  return `${limit ? limit + '\n' : ''}[board]\n${own.join('\n')}\n`;
}
/**
 * The first steps of a callers' text, as it was answered, with the core given back at the end; and its board alone, for
 * a kernel. Nothing where the board isn't a table.
 * @param {string} text @param {any[]} entries @param {number} step
 */
export function first_steps(text, entries, step) {
  const made = entries.filter(it => it.kind === 'entry' && it.number <= step), board = board_of(text, true);
  if (!board) return null;
  const core = made.map(it => it.lock.match(/core: (?:taken by T(\d+)|free)/)).filter(Boolean).pop();
  const table = (/** @type {any} */ it) => `[[step]]\ndo = "${it.call}"\nwho = ${it.who.slice(1)}\n`
    + keys_of(it.keys).map(([key, value]) => `${key} = ${value_of(key, value)}\n`).join('');
  const gives = core?.[1] ? [{ call: 'give', who: 'T' + core[1], keys: '' }] : [];
  return { board, text: board_of(text, false) + [...made, ...gives].map(table).join('') };
}
/** The passes that callers hold after a step, by caller. @param {any[]} entries @param {number} step */
export function passes_at(entries, step) {
  /** @type {Map<string, string>} */
  const holders = new Map();
  for (const it of entries) {
    if (it.kind !== 'entry' || it.number > step) continue;
    const keys = Object.fromEntries(keys_of(it.keys));
    if (keys.as && it.answer === keys.as) holders.set(keys.as, it.who);
    if (keys.pass && it.answer.startsWith('done')) holders.delete(keys.pass);
  }
  return holders;
}

/** Whether a lesson has all of some words, in its title, its text, or what is said of it. @param {any} it @param {string} asked */
export function has_words(it, asked) {
  const all = [it.title, it.text, it.story, it.exercise?.question].join('\n').toLowerCase();
  return asked.toLowerCase().split(/\s+/).every(word => all.includes(word));
}
export const HOLE = '____', HOLE_LINE = '# your steps here';
/** What each callback of a bank says that it does, by its number. @param {string} text */
export const actions_of = text => text.split('\n').map(line => bare_of(line).trim()).join('\n')
  .split(/^\[\[\s*callback\s*\]\]$/m).slice(1)
  .map(part => part.split('\n').filter(Boolean).join(' ') || 'handles each event, and asks for nothing');
/** What was played at a step, each with the number of its callback. @param {any[]} entries @param {number} step */
export function plays_at(entries, step) {
  const callbacks = new Map(), found = [];
  for (const it of entries) {
    if (it.number > step) break;
    const played = it.kind === 'play' && it.number === step && it.line.match(/^\s+(line \d+ \w+|timer \d+) /);
    if (played && callbacks.has(played[1])) found.push({ of: played[1], callback: callbacks.get(played[1]) });
    const callback = it.kind === 'entry' && it.keys.match(/(?:line=(\d+) stage=(\w+) )?callback=(\d+)/);
    if (!callback) continue;
    const timer = it.call === 'new_timer' && it.answer.match(/^number (\d+)$/);
    if (timer) callbacks.set(`timer ${timer[1]}`, Number(callback[3]));
    if (it.call === 'request' && it.answer === 'done')
      callbacks.set(`line ${callback[1]} ${callback[2]}`, Number(callback[3]));
  }
  return found;
}
