// The bars between the parts of the page; where each was put is kept in this browser.
import { $ } from './now.js';
import { kept } from './kept.js';
import { refit } from './picture.js';

/** A bar between two parts, dragged or moved by arrow keys; its place is kept. @param {() => string} name_of */
function split(id, name_of, low, high, is_across) {
  const bar = $(id), put = (/** @type {number} */ part) => {
    const to = Math.max(low, Math.min(high, part));
    document.documentElement.style.setProperty(name_of(), to + '%');
    bar.setAttribute('aria-valuenow', Math.round(to));
    kept.set(name_of(), String(to));
    refit();
  };
  const drag = (/** @type {any} */ event) => {
    const box = bar.parentNode.getBoundingClientRect();
    put(100 * (is_across() ? (event.clientX - box.left) / box.width : (event.clientY - box.top) / box.height));
  };
  bar.onpointerdown = (/** @type {any} */ event) => {
    bar.setPointerCapture(event.pointerId);
    bar.onpointermove = drag;
  };
  bar.onpointerup = () => { bar.onpointermove = null; };
  bar.onkeydown = (/** @type {any} */ event) => {
    const by = { ArrowLeft: -2, ArrowUp: -2, ArrowRight: 2, ArrowDown: 2 }[event.key];
    if (!by) return;
    event.preventDefault();
    event.stopPropagation();
    put(Number(bar.getAttribute('aria-valuenow')) + by);
  };
}
export function wire_bars() {
  const bars = ['--left', '--trace', '--top', '--down', '--wide', '--wide-trace', '--wide-down'];
  for (const name of bars) if (kept.get(name)) document.documentElement.style.setProperty(name, kept.get(name) + '%');
  const is_wide = () => document.body.classList.contains('wide');
  split('split-left', () => '--left', 18, 75, () => true);
  const is_down = () => document.body.classList.contains('down');
  split('split-state', () => (is_wide() ? '--wide-' : '--') + (is_down() ? 'down' : 'trace'), 20, 85,
    () => !is_wide() && !is_down());
  split('split-picture', () => is_wide() ? '--wide' : '--top', 15, 85, is_wide);
}
