// Every order in which the callers may come: a verdict, what was asked, a table of outcomes, each opened by a click.
import { $, all, now, escaped, text_of } from './now.js';
import { drawn, gone_through, played, scenario_in_order, stop_orders, ORDERS_SECONDS } from './asks.js';
import { why_of } from './reads.js';
import { ask_of, bare_of } from './text.js';

const MOST_OUTCOMES = 200, MOST_PICTURES = 24;
let turn = 0;
/** @type {any} */
let shown = null;

/** What is against what is asked, in words: outcomes, questions about moments, how many outcomes. @param {any} it */
function contradiction(it) {
  const named = (/** @type {string} */ what, /** @type {any[]} */ all) => {
    const bad = all.filter(one => one.against).map(one => one.number);
    return bad.length ? [`${what}${bad.length > 1 ? 's' : ''} ${bad.join(', ')}`] : [];
  };
  const found = [...named('outcome', it.outcomes), ...named('state', it.states)], count = it.outcomes.length;
  const one = it.first_alone ? 'is the first that contradicts' : 'contradicts';
  const verb = found.length > 1 || /^\w+s /.test(found[0] || '') ? 'contradict' : one;
  if (found.length) return `${found.join(' and ')} ${verb} what is asked`;
  const asked = it.outcomes_asked, are = (/** @type {number} */ n) => n === 1 ? 'is' : 'are';
  return it.whole && asked !== null && asked !== count
    ? `${count_text(asked, 'outcome')} ${are(asked)} asked for, and there ${are(count)} ${count}` : why_of(it.err);
}
/** Whether the scheduler of one processor picks who makes a step. @param {string} asks */
const is_picked = asks => asks.split('\n').some(line => /^\s*["']?as_picked["']?\s*=\s*true/.test(bare_of(line)));
/** How it ended, and in which words. @param {any} it */
export function verdict_of(it) {
  const why = why_of(it.err), picked = is_picked(it.asks || '') ? ' as threads are picked' : '';
  const doubt = it.asks ? it.doubts[0] : '';
  if (it.status === -2) return ['unknown', `Not answered: ${why}. Fewer callers or fewer steps have fewer orders.`];
  if (it.status === 1) return ['bad', `No: ${contradiction(it)}.`];
  if (!it.whole) return ['unknown', `Not answered: cut off; nothing is known about longer orders (${it.orders} ended).`];
  if (it.status) return ['bad', `The orders were not explored: ${why}`];
  if (!it.asks) return ['none', `Nothing is asked. There ${it.orders === '1' ? 'is' : 'are'} ${count_text(it.orders, 'order')}.`];
  const well = `holds in ${it.orders === '1' ? 'the one order' : `all ${it.orders} orders`}${picked}`;
  return doubt ? ['unknown', `What is asked ${well}, but check that it is what you mean: ${doubt}.`]
    : ['good', `Yes: what is asked ${well}.`];
}
/** @param {number} mine @param {import('./asks.js').Text} text */
export async function go_orders(mine, text) {
  const my = ++turn, at = performance.now(), verdict = $('verdict');
  stop_orders('the text was edited');
  $('orders-stop').disabled = false;
  verdict.className = 'busy';
  let progress = '';
  const tick = () => {
    const seconds = ((performance.now() - at) / 1000).toFixed(0);
    verdict.textContent = `Going through all orders: ${seconds} s (at most ${ORDERS_SECONDS} s) ${progress}`;
  };
  const heard = (/** @type {string} */ text) => {
    progress = text.trim().split('\n').pop()?.replace(/^(lab: )?(scenario\.toml: )?/, '') || progress;
  };
  tick();
  const clock = setInterval(tick, 500);
  $('outcomes').innerHTML = '';
  const answer = await gone_through(text, ask_of(text.text), heard);
  clearInterval(clock);
  if (my !== turn) return null;
  $('orders-stop').disabled = true;
  if (mine === now.turn) show_orders(answer);
  return answer;
}
/** @param {any} o @param {number} i @param {any} it @param {number} sum */
function outcome_row(o, i, it, sum) {
  const bad = o.against, sign = bad ? ' ✗<span class="heard"> against what is asked</span>' : '';
  const stuck = o.stuck.map(says => `<b class="refused">stuck: ${escaped(says)}</b>`);
  const ends = [...stuck, ...o.ends.map(escaped)].join('<br>');
  const answers = o.answers.map(a => escaped(a.replace(' -> ', ': ').replace(/ -> /g, ', '))).join('<br>');
  const opens = ` <button data-open="${i}" aria-label="Open outcome ${o.number}">Open</button>`;
  return `<tr class="${bad ? 'bad' : ''}"><th scope="row">${o.number}${sign}${opens}</th><td class="n">${o.count}`
    + `<i style="width:${(60 * o.count / sum).toFixed(0)}px"></i></td><td>${ends}</td><td>${answers}</td>`
    + `<td>${escaped(o.order)}</td></tr>`
    + `<tr class="picture" hidden><td colspan="5" data-picture="${i}"></td></tr>`;
}
/** @param {string | number} n @param {string} what */
const count_text = (n, what) => `${n} ${what}${String(n) === '1' ? '' : 's'}`;
/** A question about moments, with what was found. @param {any} s @param {number} i */
function state_row(s, i) {
  const sign = s.against ? ' ✗<span class="heard"> against what is asked</span>' : '';
  const opens = s.has_order ? ` <button data-open="${i}" aria-label="Open state ${s.number}">Open</button>` : '';
  return `<tr class="${s.against ? 'bad' : ''}"><th scope="row">${s.number}${sign}${opens}</th><td>${escaped(s.key)}</td>`
    + `<td><code>${escaped(s.asks)}</code></td><td>${escaped(s.found)}</td><td>${escaped(s.order)}</td></tr>`;
}
/** @param {any[]} states */
const states_table = states => !states.length ? '' : '<table id="moments"><caption>What is asked of each moment; the first '
  + `order that leads there opens.</caption><thead><tr>${['state', 'asked', 'of a moment', 'found', 'order'].map(h =>
    `<th scope="col">${h}</th>`).join('')}</tr></thead><tbody>${states.map(state_row).join('')}</tbody></table>`;
/** A picture of its own, which nothing of the page reaches. @param {string} svg @param {string} says */
export const image_of = (svg, says) =>
  `<img src="data:image/svg+xml,${encodeURIComponent(svg)}" alt="${escaped(says)}" loading="lazy">`;
/** Draws the first order of each outcome below its row, one after the other; a click opens it. */
export async function show_pictures() {
  const it = shown;
  $('pictures').hidden = true;
  for (const cell of all('#outcomes [data-picture]').slice(0, MOST_PICTURES)) {
    const o = all_parts(it)[Number(cell.dataset.picture)], text = text_of(await view_of(o, it));
    const svg = await drawn(text, text.turns ? played(text) : Promise.resolve({ out: '' }));
    if (it !== shown) return;
    cell.parentElement.hidden = false;
    cell.innerHTML = svg.out ? `<button data-open="${cell.dataset.picture}" aria-label="Open outcome ${o.number}">`
      + `${image_of(svg.out, `Picture of outcome ${o.number}`)}</button>` : escaped(why_of(svg.err));
  }
}
/** @param {any} it */
function show_orders(it) {
  const [how, says] = verdict_of(it), sum = it.outcomes.reduce((n, o) => n + Number(o.count), 0);
  shown = it;
  $('verdict').className = how;
  $('verdict').textContent = says;
  $('asked').innerHTML = it.asks
    ? `<b>Asked</b> ${it.asks.split('\n').slice(1).map(line => `<code>${escaped(line)}</code>`).join(', ')}`
    : 'To ask, add a table <code>[ask]</code>, as <code>always_ends = true</code>.';
  $('doubts').innerHTML = it.doubts.map(doubt => `<li>${escaped(doubt)}</li>`).join('');
  const heads = ['outcome', 'orders', 'ends', 'answers of each caller', 'first order'];
  const rows = it.outcomes.slice(0, MOST_OUTCOMES).map((o, i) => outcome_row(o, it.states.length + i, it, sum));
  $('pictures').hidden = !rows.length;
  const rest = it.outcomes.length - rows.length, head = heads.map(h => `<th scope="col">${h}</th>`).join('');
  $('outcomes').innerHTML = states_table(it.states) + (!rows.length ? '' : `<table><caption>${count_text(it.orders, 'order')}, ${count_text(it.outcomes.length, 'outcome')}, `
    + `${(it.ms / 1000).toFixed(2)} s. The first order of each outcome opens as trace and picture.`
    + `${it.first_alone && it.status === 1 ? ' Of atomic steps the program names the first contradiction alone.' : ''}</caption>`
    + `<thead><tr>${head}</tr></thead><tbody>${rows.join('')}</tbody></table>`
    + (rest > 0 ? `<p>and ${rest} more outcomes</p>` : ''));
}
/** What opens as trace and picture: what was found of moments, and outcomes. @param {any} it */
const all_parts = it => [...it.states, ...it.outcomes];
/**
 * What opens of an outcome or a moment: its order as a scenario, of atomic steps the text itself and which of its orders.
 * The last step is looked at: a moment is as was asked there, or the order ends so.
 * @param {any} it @param {any} found
 */
async function view_of(it, found) {
  const text = it.turns ? found.of.text : await scenario_in_order(found.of, it);
  const order = it.order || 'of no step', title = it.asks ? `State ${it.number} (${it.asks}), in the order ${order}`
    : `Outcome ${it.number} (${count_text(it.count, 'order')}), in the order ${order}`;
  return { step: Infinity, text, turns: it.turns, title };
}
/** What is against what is asked, or else the first outcome. @param {any} found */
export async function first_view(found) {
  const against = (/** @type {any} */ it) => it.against && it.has_order;
  const it = found.outcomes.find(against) || found.states.find(against) || found.outcomes[0];
  return it ? view_of(it, found) : null;
}
/** @param {number} i */
export const part_shown = i => view_of(all_parts(shown)[i], shown);
