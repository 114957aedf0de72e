#!/usr/bin/env node
'use strict';
// `npx junketscarp ARGUMENTS` runs the program `sourcemap` that the package has for this platform, with the templates of its pages. Its
// input, output and status are those of the program; the status is 1 where there is none.

const { spawnSync } = require('node:child_process');
const { existsSync, readdirSync } = require('node:fs');
const { join } = require('node:path');

const PREBUILDS = join(__dirname, '../prebuilds');
const TEMPLATES = { SOURCEMAP_PAGE: join(__dirname, '../wasm/page.html'), SOURCEMAP_SIZE: join(__dirname, '../wasm/size.html') };

const here = `${process.platform}-${process.arch}`;
const programOf = (platform) => join(PREBUILDS, platform, 'sourcemap');

/** The platforms for which the package has the program. */
function platforms() {
  const all = existsSync(PREBUILDS) ? readdirSync(PREBUILDS) : [];
  return all.filter((it) => existsSync(programOf(it))).sort();
}

/** Says why the program does not run, and what does. */
function refuse(reason) {
  console.error(`junketscarp: ${reason}.`);
  console.error('The calls of the package do the same work on every platform: SourceMap, CompiledMap and others, see its README.md.');
  console.error('For the program itself, run this in a container, or a virtual machine, of Linux on x86-64 with glibc.');
  process.exitCode = 1;
}

function run(program) {
  const pages = Object.fromEntries(Object.entries(TEMPLATES).filter(([, it]) => existsSync(it)));
  const ran = spawnSync(program, process.argv.slice(2), { stdio: 'inherit', env: { ...pages, ...process.env } });
  if (ran.error !== undefined) {
    // (ENOENT of a file that is there: its loader is not)
    refuse(`the program ${program} does not run on this machine (${ran.error.code})`);
  } else if (ran.signal !== null) {
    process.kill(process.pid, ran.signal);
  } else {
    process.exitCode = ran.status;
  }
}

if (existsSync(programOf(here))) run(programOf(here));
else refuse(`the program sourcemap is there for ${platforms().join(', ') || 'no platform'}, and not for ${here}`);
