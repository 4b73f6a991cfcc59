// What comes into the page from elsewhere, each as a text of one's own: of a link, a file, an outcome, another tab.
import { $, now } from './now.js';
import { exercise_lesson } from './exercise.js';
import { handed } from './kept.js';
import { own_lesson } from './mine.js';
import { name_of } from './share.js';

/** What a link brought, as a lesson; a link that can't be read is reported. @param {any[]} lessons */
export async function lesson_of_link(lessons) {
  try {
    const it = await handed();
    if (!it) return null;
    if (it.kind === 'lesson') {
      const found = lessons.find(lesson => name_of(lesson) === it.read.name);
      if (!found) throw new Error(`this page has no lesson ${it.read.name}`);
      return found;
    }
    if (it.kind === 'exercise') return own_lesson('exercise', exercise_lesson(it.read));
    const { title = 'From a link', text, bank = '' } = it.read;
    return own_lesson('link', { title, text, bank });
  } catch (error) {
    const why = error instanceof Error && /^(this page|it has)/.test(error.message) ? error.message
      : 'it is damaged or cut off';
    $('status').textContent = `The link could not be read: ${why}`;
    return null;
  }
}
/** The exercise that a file holds, or null. @param {string} text */
function read_exercise(text) {
  try {
    const it = JSON.parse(text);
    return typeof it.text === 'string' && it.check ? exercise_lesson(it) : null;
  } catch { return null; }
}
/**
 * A file as a lesson: an exercise with the answer that was begun, another text as the file has it.
 * @param {string} name @param {string} text
 */
export function lesson_of_file(name, text) {
  const exercise = read_exercise(text);
  return exercise ? own_lesson('exercise', exercise) : own_lesson('file', { title: name, text }, true);
}
/** An outcome that is looked at, as a text of one's own. @param {any} view */
export const lesson_of_outcome = view =>
  own_lesson('outcome', { title: view.title.split(',')[0], text: view.text, bank: $('bank').value }, true);
/** What another tab had written into the text that is open here. @param {{ text: string, bank: string }} it */
export const lesson_of_tab = it => own_lesson('tab', { ...it, title: `${now.lesson.title} (from another tab)` });
