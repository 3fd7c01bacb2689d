'use strict';
// The examples of README.md, which is handed in, over CLDR's data inside the package: what a line gives is told after it.
const assert = require('assert');
const fs = require('fs');
const util = require('util');
const vm = require('vm');

// A line that gives something, which may be kept by a name, and what it gives.
const EXAMPLE = /^(?:const (\w+) = )?(.*?);\s+\/\/ ((?:['[{\d]|true|null).*)$/;
const page = fs.readFileSync(process.argv[2], 'utf8');
const blocks = [...page.matchAll(/^```js\n([^]*?)^```$/gm)].map(([, block]) => block).filter((it) => !it.includes('Worker'));
const lines = blocks.join('').split('\n').filter((it) => it && !it.includes('.close()'));
const context = vm.createContext({ require, request: { headers: { 'accept-language': 'zh-TW' } } });
let count = 0;
for (const line of lines) {
  vm.runInContext(line.replace(/^const /, 'var '), context);
  const [, name, expression, wanted] = EXAMPLE.exec(line) || [];
  if (wanted) {
    const shown = util.inspect(vm.runInContext(name || expression, context)).replace(/^\[ | \]$/g, (it) => it.trim());
    assert.ok(wanted.startsWith(shown), `${line} gives ${shown}`);
    count += 1;
  }
}
assert.ok(count > 20, `${count} examples`);
console.log('page: as it should be');
