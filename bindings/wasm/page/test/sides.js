'use strict';
// What drive.js looks at in a page of `sourcemap page`, where it also has what areas.js looks at: all of it is evaluated there.

const areas = require('./areas.js');

/** Whether the page has read its data. */
const READY = `document.querySelector('#answer').textContent !== 'Reading the map.'`;

/** What the page says and highlights. */
const STATE = `(() => {
  const text = (selector) => [...document.querySelectorAll(selector)].map((it) => it.textContent).join('');
  const focus = document.activeElement;
  return {
    ...${areas.STATE},
    answer: text('#answer'), code: text('#code .here'), also: text('#code .also'), source: text('#original .here'), found: text('#found'),
    begin: document.querySelector('#original .text')?.textContent.slice(0, 20) ?? '',
    option: document.querySelector('#source')?.selectedOptions[0]?.textContent ?? '', summary: text('#summary'),
    grey: text('#code .none'), focus: focus.id || focus.getAttribute('aria-label') || focus.textContent,
  };
})()`;

/** Facts that hold of each page, whatever is shown. */
const FACTS = `(() => {
  const here = document.querySelector('#code .here')?.getBoundingClientRect();
  const pane = document.querySelector('#code').getBoundingClientRect();
  return {
    ...${areas.FACTS}, square: true, // (a source may have all but a few bytes)
    width: document.documentElement.scrollWidth <= innerWidth, height: document.documentElement.scrollHeight <= innerHeight,
    elements: document.querySelectorAll('*').length < 8000,
    room: [...document.querySelectorAll('.pane:not([hidden])')].every((it) => it.clientHeight >= 100),
    seen: !here || (here.top >= pane.top - 1 && here.bottom <= pane.bottom + 1),
    whole: [...document.querySelectorAll('[data-key]')].every((it) => !/\\p{Surrogate}/u.test(it.textContent)),
    asksNothing: performance.getEntriesByType('resource').length === 0,
    inRow: [...document.querySelectorAll('.row')].every((it) => it.getBoundingClientRect().height === 20 && getComputedStyle(it).lineHeight === '20px'),
  };
})()`;

/** The middle of the first part of a pane with a text. Without a pane see areas.js. */
const middleOf = (pane, text) => (text === undefined ? areas.middleOf(pane) : inPane(pane, text));
const inPane = (pane, text) => `(() => {
  const it = [...document.querySelectorAll('#${pane} [data-key]')].find((it) => it.textContent === ${JSON.stringify(text)});
  if (!it) return null;
  const { left, top, width, height } = it.getBoundingClientRect();
  return [left + Math.min(width / 2, 30), top + height / 2];
})()`;

module.exports = { READY, STATE, FACTS, middleOf };
