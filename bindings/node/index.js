'use strict';
// The package for Node.js: over the module for WebAssembly, or over the addon where there is no memory of 64 bits for it.
// README.md has examples, and index.d.ts says what each call takes.
const fs = require('fs');
const path = require('path');
// Newer versions of Node.js refuse a copy for another thread; older ones make an empty object.
const { markAsUncloneable = () => {} } = require('worker_threads');
const { stand } = require('./asking.js');
const { textsOfFolder, toldByFolder } = require('./data.js');
const { Locale } = require('./locale.js');
const { Module, hasWideMemory } = require('./module.js');
const { DisplayNames } = require('./names.js');
const { Refused } = require('./refused.js');
const { Negotiator, Switcher } = require('./served.js');
const { Tables, cldrVersion, cldrLocales } = require('./tables.js');

const VARIABLE = 'ICU_LOCALE_IMPLEMENTATION';
const WANTED = process.env[VARIABLE] || '';
const MODULE = path.join(__dirname, 'icu_locale.wasm');

function overModule() {
  if (!hasWideMemory()) throw new Error('this Node.js has no memory of 64 bits for WebAssembly');
  return new Module(new WebAssembly.Instance(new WebAssembly.Module(fs.readFileSync(MODULE)), {}));
}

function overAddon() {
  return require('./addon.js');
}

// The name of the first of the implementations that there is, and its calls.
function chosen() {
  const all = { module: overModule, addon: overAddon };
  if (WANTED && !Object.keys(all).includes(WANTED)) throw new RangeError(`${VARIABLE} is module or addon`);
  const faults = [];
  for (const [name, begun] of Object.entries(all).filter(([it]) => !WANTED || it === WANTED)) {
    try {
      return [name, begun()];
    } catch (fault) {
      faults.push(fault.message.split('\n')[0]);
    }
  }
  const since = 'as Node.js has from 24 on, and 20 and 22 by the flag --experimental-wasm-memory64';
  throw new Error(`icu_locale wants memory of 64 bits for WebAssembly, ${since}, or else icu_locale_addon: ${faults.join('; ')}`);
}

const [implementation, calls] = chosen();
stand({ calls, textsOfCldr: textsOfFolder, toldOfCldr: toldByFolder, mark: markAsUncloneable });

module.exports = {
  Tables, Locale, DisplayNames, Negotiator, Switcher, Refused, cldrVersion, cldrLocales, implementation,
};
/** What is loaded already; in a browser the same call loads it. */
module.exports.load = async () => module.exports;
