'use strict';
// What drive.js looks at in a page of `sourcemap size`, and in the same part of one of `page`: all of it is evaluated there.

/** Whether the page has read its data. */
const READY = `document.querySelector('#said').textContent !== 'The page has no data.'`;

/** What the page says and shows: areas by their names for who does not see them, and how many are drawn inside them. */
const STATE = `(() => {
  const texts = (selector) => [...document.querySelectorAll(selector)].map((it) => it.textContent).join('|');
  const options = [...document.querySelectorAll('[role=option]')];
  const focus = document.activeElement;
  return {
    said: texts('#said'), parts: options.map((it) => it.getAttribute('aria-label')).join('|'), inside: document.querySelectorAll('#map .part .part').length,
    labels: texts('[role=option]:not(:has(.part)) > .label'), heads: texts('[role=option]:has(.part) > .label'), legend: texts('#legend li'),
    path: texts('#path button'), rows: texts('#bytes tr'), sum: texts('#sum tr'), title: document.title,
    focus: focus.getAttribute('aria-label') ?? focus.textContent, chosen: options.findIndex((it) => it.getAttribute('aria-selected') === 'true'),
  };
})()`;

/** Facts that hold of each page, whatever is shown. Areas are those of the bytes that their names tell, to a pixel at each side. */
const FACTS = `(() => {
  const map = document.querySelector('#map').getBoundingClientRect();
  const options = [...document.querySelectorAll('[role=option]')];
  const boxes = options.map((it) => it.getBoundingClientRect());
  const bytes = options.map((it) => Number(/.*: ([\\d,]+) byte/s.exec(it.getAttribute('aria-label'))[1].replaceAll(',', '')));
  const all = bytes.reduce((a, b) => a + b, 0);
  const within = (inner, outer) => inner.left >= outer.left - 0.1 && inner.top >= outer.top - 0.1 && inner.right <= outer.right + 0.1 && inner.bottom <= outer.bottom + 0.1;
  const apart = (a, b) => a.right <= b.left + 0.1 || b.right <= a.left + 0.1 || a.bottom <= b.top + 0.1 || b.bottom <= a.top + 0.1;
  const parts = [...document.querySelectorAll('#map .part .part')];
  const siblings = new Map(parts.map((it) => [it.parentElement, [...it.parentElement.querySelectorAll(':scope > .part')].map((inner) => inner.getBoundingClientRect())]));
  return {
    width: document.documentElement.scrollWidth <= innerWidth, elements: document.querySelectorAll('*').length < 30000,
    asksNothing: performance.getEntriesByType('resource').length === 0, noneIsMade: document.querySelector('img, b, i, a') === null,
    proportional: boxes.every((it, i) => Math.abs(it.width * it.height - (map.width * map.height * bytes[i]) / all) <= (it.width + it.height) / 16 + 0.1),
    sorted: bytes.every((it, i) => i === 0 || it <= bytes[i - 1]), inMap: boxes.every((it) => within(it, map)),
    apart: [boxes, ...siblings.values()].every((them) => them.slice(0, 200).every((a, i) => them.slice(0, i).every((b) => apart(a, b)))),
    inOuter: parts.every((it) => within(it.getBoundingClientRect(), it.parentElement.getBoundingClientRect())),
    square: boxes.filter((it) => it.width * it.height > 400).every((it) => Math.max(it.width / it.height, it.height / it.width) < 16),
    oneStop: options.length === 0 || options.filter((it) => it.tabIndex === 0).length === 1,
  };
})()`;

/** A place in the area, or in one inside it, whose label begins with a text, or else in such a summary. */
const middleOf = (text) => `(() => {
  const it = [...document.querySelectorAll('#map .label, summary')].find((it) => it.textContent.startsWith(${JSON.stringify(text)}));
  if (!it) return null;
  const { left, top } = it.getBoundingClientRect();
  return [left + 10, top + 8];
})()`;

module.exports = { READY, STATE, FACTS, middleOf };
