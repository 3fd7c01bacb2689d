'use strict';
// Copies of the package that have no data, or neither the module nor the addon: each says so in one sentence.
const assert = require('assert');
const fs = require('fs');
const os = require('os');
const path = require('path');
const { spawnSync } = require('child_process');

const here = path.dirname(require.resolve('icu_locale'));
const addon = [path.join(here, 'addon'), path.join(here, '..', 'icu_locale_addon')].find((it) => fs.existsSync(it));

// What a line of JavaScript says in a folder that has the files whose names fit, and beside them the addon or none.
function says(names, besides, script, variables) {
  const folder = fs.mkdtempSync(path.join(os.tmpdir(), 'icu-locale-'));
  try {
    const chosen = fs.readdirSync(here).filter((it) => names.test(it));
    for (const name of chosen) fs.copyFileSync(path.join(here, name), path.join(folder, name));
    if (besides) fs.cpSync(besides, path.join(folder, 'node_modules', 'icu_locale_addon'), { recursive: true });
    const words = [...process.execArgv, '-e', `try { ${script} } catch (error) { console.log(error.message) }`];
    const env = { ...process.env, ...variables };
    const ended = spawnSync(process.execPath, words, { cwd: folder, encoding: 'utf8', env });
    return ended.stdout + ended.stderr;
  } finally {
    fs.rmSync(folder, { recursive: true });
  }
}

const all = /\.(js|wasm)$/;
const bare = says(all, addon, "require('./index.js').Tables.cldr()");
assert.match(bare, /^NoCldr: this package has none of CLDR's data inside; Tables.fromJson takes .*\n$/);
const neither = says(/\.js$/, undefined, "require('./index.js')", { ICU_LOCALE_IMPLEMENTATION: '' });
assert.match(neither, /^icu_locale wants memory of 64 bits for WebAssembly, as Node.js has from 24 on, .* or else icu_locale_addon: .*; .*\n$/);
const wrong = says(all, addon, "require('./index.js')", { ICU_LOCALE_IMPLEMENTATION: 'wasm' });
assert.match(wrong, /^ICU_LOCALE_IMPLEMENTATION is module or addon\n$/);
console.log('nowhere: as it should be');
