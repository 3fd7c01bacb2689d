'use strict';
// The calls by the module where each request for memory is refused in turn, and all after it: they say so, or do what they
// should, and nothing is lost. Many calls take no more memory.
const assert = require('assert');
const fs = require('fs');
const path = require('path');

const here = path.dirname(require.resolve('icu_locale'));
const { Module } = require(path.join(here, 'module.js'));
const [example, supplement, bytes] = ['example.json', 'example-supplement.json', 'icu_locale.wasm'].map((it) => (
  fs.readFileSync(require.resolve(`icu_locale/${it}`))));
const { exports: its } = new WebAssembly.Instance(new WebAssembly.Module(bytes), {});
const MEMORY = 4;
const ALL = 2n ** 64n - 1n;
const variants = Array.from({ length: 60 }, (_, number) => `piece${String(number).padStart(3, '0')}`).join('-');
let refusals = 0;

// What a call gives once so many requests are granted that it is done.
function done(call) {
  for (let granted = 0n; ; granted += 1n) {
    its.icu_locale_grants(granted);
    const told = call();
    its.icu_locale_grants(ALL);
    if (told !== MEMORY && !(Array.isArray(told) && told[0] === MEMORY && told[1] === '')) return told;
    refusals += 1;
  }
}

const calls = new Module({ exports: its });
const taken = () => Number(its.icu_locale_taken());

function trial(line) {
  const held = done(() => calls.open(example));
  assert.strictEqual(done(() => calls.supplement(held, supplement)), 0);
  const [shared, named] = [done(() => calls.share(held)), done(() => calls.open(example))];
  assert.deepStrictEqual(done(() => calls.dataName(held)), [1, '']);
  const flat = done(() => calls.flatNames(named));
  assert.strictEqual(done(() => calls.lendNames(named, flat)), 0);
  assert.strictEqual(done(() => calls.lendNames(named, flat)), 0);
  assert.strictEqual(done(() => calls.lendNames(named, flat.subarray(1))), 6);
  assert.strictEqual(done(() => calls.lendNames(held, flat)), 12);
  const negotiator = done(() => calls.available(held, '', 'en de-1996 zh-Hant'));
  assert.deepStrictEqual(done(() => calls.negotiate(negotiator, '', 'fr de-1996-1901 zh-TW')), [2, 2]);
  const extended = done(() => calls.available(held, 'locales', 'en-u-hc-h12 zh-Hant-x-mine'));
  assert.deepStrictEqual(done(() => calls.negotiate(extended, 'bcp47', 'i-klingon zh-TW-u-nu-latn')), [1, 1]);
  assert.strictEqual(done(() => calls.answer(extended, 'negotiate', 'zh-TW')), '0\tzh-Hant-x-mine');
  for (const word of ['utf8', 'locales'.repeat(20)]) {
    assert.strictEqual(done(() => calls.available(held, word, 'en')), 7);
    assert.strictEqual(done(() => calls.negotiate(extended, word, 'en')), 7);
  }
  for (const each of [shared, negotiator, extended]) {
    assert.strictEqual(done(() => calls.answer(each, 'locales maximize', line)), `de-Latn-DE-${variants}\tM`);
    assert.strictEqual(done(() => calls.answer(each, `locales  ${'maximize '.repeat(20)}`, 'de'))[0], 7);
    assert.strictEqual(done(() => calls.answer(each, 'name light en', 'it-US')), 'Italian (United States)\tN');
    assert.deepStrictEqual(done(() => calls.answer(each, 'maximize', 'e')), [1, '?\tInvalidLanguage']);
  }
  assert.strictEqual(done(() => calls.answer(negotiator, 'serve', 'fr, zh-TW;q=0.1')), '2\tzh-Hant');
  assert.strictEqual(done(() => calls.supplement(named, JSON.stringify({ cldr: variants }))), 0);
  assert.strictEqual(done(() => calls.dataName(named)), variants);
  for (const each of [held, shared, named, negotiator, extended]) calls.close(each);
  return taken();
}

// A trial leaves five handles, whose blocks, of 48 bytes at the most, go when their objects are collected.
let before = trial(`de-${variants}`);
for (const line of [`de-${variants}`, Buffer.from(`de-${variants}`)]) {
  const after = trial(line);
  assert.ok(after <= before + 5 * 48, `${after - before} bytes are lost`);
  before = after;
}
const held = calls.open(example);
// a long answer, and a long line that is refused, leave nothing that is taken
const wide = `en-x${'-abcdefgh'.repeat(20000)}`;
before = taken();
for (const line of [wide, Buffer.from(wide), `${wide}-`]) {
  const told = calls.answer(held, 'locales minimize', line);
  assert.deepStrictEqual(told, line.length === wide.length ? `${wide}\tU` : [1, '?\tInvalidSubtag']);
  calls.giveBack(held);
  assert.ok(taken() - before < 1000, `${taken() - before} bytes are kept`);
}
const lines = ['zh-TW', 'de-Latn-1996', 'e', `de-${variants}`];
const ask = () => lines.forEach((it) => calls.answer(held, 'maximize', it));
ask();
before = [taken(), its.memory.buffer.byteLength];
for (let time = 0; time < 100000; time += 1) ask();
assert.deepStrictEqual([taken(), its.memory.buffer.byteLength], before, 'calls take more and more memory');
assert.ok(refusals > 100, `${refusals} refusals`);
assert.throws(() => {
  its.icu_locale_grants(1n);
  return new Module({ exports: its });
}, /there is no memory/);
console.log(`memory: as it should be, ${refusals} refusals`);
