// Long lists of lines in parts: only what is near the view, or was gone to, has an element for each line.
import { $ } from './now.js';

const SIZE = 50;
/** @typedef {{ from: number, lines: any[], key: string, box: any, near: boolean, full: boolean }} Part */

export class Parts {
  /**
   * @param {string} view  what scrolls @param {string} list  what has the parts
   * @param {(part: Part) => string} html_of  a part with its lines, each an element
   * @param {(part: Part) => void} put_plain  shows what keeps the part's room
   */
  constructor(view, list, html_of, put_plain) {
    this.view = view;
    this.list = list;
    this.html_of = html_of;
    this.put_plain = put_plain;
    /** @type {Part[]} */
    this.all = [];
    /** @type {IntersectionObserver | null} */
    this.watch = null;
  }
  begin() {
    const seen = (/** @type {IntersectionObserverEntry} */ it) => {
      const part = this.all[Number(/** @type {any} */ (it.target).dataset.n)];
      if (part?.box !== it.target) return;
      part.near = it.isIntersecting;
      if (part.near) this.fill(part);
    };
    this.watch = new IntersectionObserver(found => found.forEach(seen), { root: $(this.view), rootMargin: '600px' });
  }
  /** @param {number} n */
  new_part(n) {
    const box = document.createElement('div');
    box.dataset.n = String(n);
    box.className = 'part';
    box.style.setProperty('--from', String(n * SIZE));
    $(this.list).append(box);
    this.watch?.observe(box);
    return { from: n * SIZE, lines: [], key: '', box, near: n < 2, full: true };
  }
  /** Makes the parts anew whose key differs. @param {any[]} lines @param {(part: Part) => string} key_of */
  put(lines, key_of) {
    if (!this.watch) this.begin();
    for (const gone of this.all.splice(Math.ceil(lines.length / SIZE))) {
      this.watch?.unobserve(gone.box);
      gone.box.remove();
    }
    while (this.all.length * SIZE < lines.length) this.all.push(this.new_part(this.all.length));
    for (const part of this.all) {
      part.lines = lines.slice(part.from, part.from + SIZE);
      const key = key_of(part);
      if (part.key === key) continue;
      part.key = key;
      part.full = false;
      part.box.style.setProperty('--rows', String(part.lines.length));
      if (part.near) this.fill(part);
      else this.put_plain(part);
    }
  }
  /** @param {Part} part */
  fill(part) {
    if (part.full) return;
    part.full = true;
    part.box.classList.remove('far');
    part.box.innerHTML = this.html_of(part);
  }
  /** For paper. */
  fill_all() {
    for (const part of this.all) this.fill(part);
  }
  /** The element of a line. @param {number} n */
  line_at(n) {
    const part = this.all[Math.floor(n / SIZE)];
    if (part) this.fill(part);
    return part?.box.children[n - part.from];
  }
}
