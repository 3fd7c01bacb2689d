'use strict';
// Writes browser.mjs: the files that are the package anywhere, each after those that it uses, and then
// fetched.mjs. What they require of each other, and what they export, is left out: all is in one scope there.
const fs = require('fs');
const path = require('path');

const FILES = [
  'refused.js', 'asking.js', 'codes.js', 'served.js', 'menu.js', 'cldr.js', 'tables.js', 'locale.js', 'names.js', 'module.js',
  'fetched.mjs',
];
const LEFT_OUT = [
  /^'use strict';\n/, /^const \{[^}]*\} = require\('\.\/[a-z]+\.js'\);\n/gm, /^module\.exports = \{[^}]*\};\n/m,
];

function partOf(name) {
  const text = fs.readFileSync(path.join(__dirname, name), 'utf8');
  return LEFT_OUT.reduce((rest, part) => rest.replace(part, ''), text);
}

const whole = FILES.map(partOf).join('\n');
if (/\brequire\(|module\.exports|^import /m.test(whole)) throw new Error('browser.mjs would import something');
fs.writeFileSync(path.join(__dirname, 'browser.mjs'), whole);
