#!/usr/bin/env node
// drive.js BROWSER CASES.json [FOLDER]   opens pages in a headless browser, in three sizes and in both modes, does what the cases say, and compares
// what is said and shown with what they want. What to look at is told by sides.js of a page of `page`, and by areas.js of one of `size`.
// FOLDER gets a screenshot of each. The last line is 'N passed, M failed'.
'use strict';

const { readFileSync, writeFileSync } = require('node:fs');
const { basename, dirname, join } = require('node:path');
const { pathToFileURL } = require('node:url');

const PROBES = { sides: require('./sides.js'), areas: require('./areas.js') };

const SIZES = { phone: [390, 844], laptop: [1280, 800], wide: [2560, 1300] };
const SECONDS = 20;
const MINUTES = 10;

const sleep = (milliseconds) => new Promise((resolve) => setTimeout(resolve, milliseconds));

/** The parts of a colour, and how far it is from another one by WCAG. */
const CONTRAST = `(() => {
  const light = (colour) => {
    const [r, g, b] = colour.match(/[\\d.]+/g).map((it) => Number(it) / 255).map((it) => (it <= 0.04045 ? it / 12.92 : ((it + 0.055) / 1.055) ** 2.4));
    return 0.2126 * r + 0.7152 * g + 0.0722 * b;
  };
  const backOf = (it) => { const back = getComputedStyle(it).backgroundColor; return /^rgba.*, 0\\)$|transparent/.test(back) ? backOf(it.parentElement) : back; };
  const ratio = (it) => { const [a, b] = [light(getComputedStyle(it).color), light(backOf(it))]; return (Math.max(a, b) + 0.05) / (Math.min(a, b) + 0.05); };
  const all = [...document.querySelectorAll('h1, label, button, summary, #answer, #keys, #ways, .number, .none, .even, .odd, .here, td, th, caption, .absent, #said, li, .label')];
  return Math.min(...all.filter((it) => it.offsetParent).map(ratio));
})()`;

/** How light the page is, from 0 to 255. */
const LIGHTNESS = `Math.max(...getComputedStyle(document.body).backgroundColor.match(/\\d+/g).slice(0, 3).map(Number))`;

class Tally {
  passed = 0;
  failed = 0;

  check(holds, what) {
    if (holds) this.passed += 1;
    else {
      this.failed += 1;
      console.log(`FAILED: ${what}`);
    }
  }
}

async function act(browser, probe, { hover, click, key, shift, find, pick }) {
  if (hover || click) {
    const place = await browser.evaluate(probe.middleOf(...(hover ?? click)));
    if (place === null) throw new Error(`there is no ${hover ?? click}`);
    await browser.move(...place);
    if (click) await browser.click(...place);
  }
  if (find !== undefined) {
    await browser.evaluate(`(document.querySelector('#query').value = '', document.querySelector('#query').focus())`);
    await browser.type(find);
    await browser.key('Enter');
  }
  if (key) await browser.key(key, shift);
  if (pick !== undefined) await browser.evaluate(`(document.querySelector('#source').selectedIndex = ${pick}, document.querySelector('#source').dispatchEvent(new Event('change')), 0)`);
}

/** What the page shows as soon as that is what is wanted, or else after some seconds: a click may take effect late on a busy machine. */
async function shownState(browser, probe, wants) {
  const last = Date.now() + 1000 * SECONDS;
  for (;;) {
    await sleep(30);
    const state = await browser.evaluate(probe.STATE);
    if (Date.now() > last || Object.entries(wants).every(([part, wanted]) => state[part] === wanted)) return state;
  }
}

/** Does the steps of a page, and compares what each leaves. */
async function steps(browser, tally, name, probe, list) {
  for (const step of list) {
    const wants = step.wants ?? {};
    await act(browser, probe, step);
    const state = await shownState(browser, probe, wants);
    for (const [part, wanted] of Object.entries(wants)) {
      tally.check(state[part] === wanted, `${name}: ${JSON.stringify(step)}: ${part} is ${JSON.stringify(state[part])}`);
    }
  }
}

async function waitFor(browser, expression) {
  for (let i = 0; i < 20 * SECONDS; i++) {
    if (await browser.evaluate(expression)) return true;
    await sleep(50);
  }
  return false;
}

async function tryPage(browser, tally, file, page, look) {
  const [size, mode] = look;
  const probe = PROBES[page.probe];
  const name = `${page.page}, ${size}, ${mode}`;
  await browser.look(...SIZES[size], mode === 'dark');
  await browser.move(1, 1);
  await browser.open(pathToFileURL(join(dirname(file), page.page)).href);
  const isRead = await waitFor(browser, `(document.readyState === 'complete' && ${probe.READY})`);
  tally.check(isRead, `${name}: the data is read`);
  await sleep(100);
  await steps(browser, tally, name, probe, page.steps);
  for (const [fact, holds] of Object.entries(await browser.evaluate(probe.FACTS))) tally.check(holds, `${name}: ${fact}`);
  const contrast = await browser.evaluate(CONTRAST);
  tally.check(contrast >= 4.5, `${name}: a contrast of ${contrast}`);
  const lightness = await browser.evaluate(LIGHTNESS);
  tally.check(mode === 'dark' ? lightness < 64 : lightness > 192, `${name}: a lightness of ${lightness}`);
  const complaints = browser.complaints();
  tally.check(complaints.length === 0, `${name}: ${JSON.stringify(complaints)}`);
  return browser.screenshot();
}

/** Each page, in each size and mode, or in those whose numbers its `looks` has. */
async function tryAll(browser, tally, file, folder) {
  const pages = JSON.parse(readFileSync(file, 'utf8'));
  const looks = Object.keys(SIZES).flatMap((size) => [[size, 'light'], [size, 'dark']]);
  const looksOf = (page) => looks.filter((_, number) => page.looks?.includes(number) ?? true);
  for (const [page, look] of pages.flatMap((it) => looksOf(it).map((look) => [it, look]))) {
    const picture = await tryPage(browser, tally, file, page, look);
    if (folder) writeFileSync(join(folder, `${basename(page.page, '.html')}-${look.join('-')}.png`), picture);
  }
}

async function main([program, file, folder]) {
  const { start } = require(/firefox/.test(program) ? './firefox.js' : './chromium.js');
  const tally = new Tally();
  const browser = await start(program);
  const late = sleep(MINUTES * 60_000).then(() => Promise.reject(new Error(`${program} is not done in ${MINUTES} minutes`)));
  try {
    await Promise.race([tryAll(browser, tally, file, folder), late]);
  } finally {
    await browser.stop();
  }
  console.log(`${tally.passed} passed, ${tally.failed} failed`);
  return tally.failed === 0 && tally.passed > 0 ? 0 : 1;
}

// A browser that ends leaves nothing to wait for.
process.exitCode = 1;
main(process.argv.slice(2)).then(
  (status) => process.exit(status),
  (error) => {
    console.log(error.stack);
    process.exit(1);
  },
);
