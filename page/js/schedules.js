// The schedule of a task set: its chart to scale, and the report of its jobs and tasks.
import { $, now, text_now } from './now.js';
import { schedule_of } from './asks.js';
import { show_none } from './steps.js';

/** Hides the schedule, where the text is no task set; a chart's style is one of the whole page, so it goes. */
export function hide_schedule() {
  $('schedule').hidden = true;
  $('chart').textContent = '';
}
/** Puts the chart there; it has a width and a height, and only with a view box is it scaled. @param {string} chart */
export function put_chart(chart) {
  $('chart').innerHTML = chart;
  const svg = $('chart').firstElementChild;
  svg?.setAttribute('viewBox', `0 0 ${svg.getAttribute('width')} ${svg.getAttribute('height')}`);
}
/** Runs the tasks, and shows the schedule; what is reported of the text. @param {number} mine */
export async function show_schedule(mine) {
  const found = await schedule_of(text_now());
  if (mine !== now.turn) return [];
  show_none(found.is_run ? '' : 'There is no schedule of this text.');
  $('schedule').hidden = !found.is_run;
  put_chart(found.chart);
  $('report').textContent = found.report;
  return found.told;
}
