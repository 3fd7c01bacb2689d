'use strict';
// The examples of README.md, wrong uses, long answers, and objects that are let go.
const assert = require('assert');
const fs = require('fs');
const { Tables, Negotiator, Refused } = require('icu_locale');

const example = fs.readFileSync(require.resolve('icu_locale/example.json'));
// A refusal has a message in words, and those that are asked for.
const refuses = (call, code, message = '') => assert.throws(call, (error) => {
  assert.ok(error instanceof Refused, String(error));
  assert.strictEqual(error.code, code);
  assert.match(error.message, /^[A-Z][A-Za-z]+: .*[a-z]+ [a-z]+/);
  return !message || error.message === message;
});

const tables = Tables.fromJson(example);
assert.strictEqual(tables.maximize('zh-TW'), 'zh-Hant-TW');
assert.strictEqual(tables.minimize('zh-Hant-TW'), 'zh-TW');
assert.strictEqual(tables.minimize('zh-Hant-TW', { favorScript: true }), 'zh-Hant');
assert.strictEqual(tables.canonicalize('sh'), 'sr-Latn');
assert.deepStrictEqual(tables.canonicalize('sh', 'abcdefg'), ['sr-Latn', 'xyz']);
assert.strictEqual(tables.direction('ar'), 'rtl');
assert.strictEqual(tables.direction('und'), null);
assert.strictEqual(tables.name('it-US', 'en'), 'Italian (United States)');
assert.strictEqual(tables.isSettled(), true);

assert.strictEqual(tables.maximize('EN-u-hc-h12-ca-buddhist-x-A'), 'en-Latn-US-u-ca-buddhist-hc-h12-x-a');
assert.strictEqual(tables.minimize('zh-Hant-TW-a-foo', { favorScript: true }), 'zh-Hant-a-foo');
assert.strictEqual(tables.canonicalize('sh-t-sh-u-rg-abcdefg'), 'sr-Latn-t-sr-latn-u-rg-xyz');
assert.strictEqual(tables.canonicalize('i-klingon', { syntax: 'bcp47' }), 'tlh');
assert.strictEqual(tables.direction('ar_EG.UTF-8', { syntax: 'posix' }), 'rtl');
assert.strictEqual(tables.name('it_US@euro', 'en', 'light', { syntax: 'posix' }), 'Italian (United States)');
assert.throws(() => tables.maximize('en', { syntax: 'utf8' }), RangeError);
refuses(() => tables.maximize('en-u'), 'InvalidSubtag');
refuses(() => tables.maximize('zh-cmn'), 'InvalidSubtag');

assert.deepStrictEqual(tables.fallback('zh-TW-u-ca-chinese'), ['zh-TW', 'zh-Hant-TW', 'zh-Hant', 'und']);
assert.deepStrictEqual(tables.fallback('de_DE.UTF-8', { syntax: 'posix' }), ['de-DE', 'de', 'und']);
const parents = '{"parents":{"en-AU":"en-001","aa":"qbb","qbb":"aa"}}';
const supplemented = Tables.fromJson(example, { supplement: parents });
for (const each of [supplemented, supplemented.share(), Tables.fromJson(example, { supplement: Buffer.from(parents) })]) {
  assert.deepStrictEqual(each.fallback('en-AU'), ['en-AU', 'en-001', 'en', 'und']);
  refuses(() => each.fallback('aa-DJ'), 'Circle');
  assert.strictEqual(each.name('it', 'en-AU', 'light', { fallback: true }), 'Italian');
  refuses(() => each.name('it', 'aa', 'light', { fallback: true }), 'Circle');
  refuses(() => each.name('it', 'de-AT', 'light', { fallback: true }), 'IdentifierNotFound',
    'IdentifierNotFound: the tables were made without the locale "de-AT"');
}
refuses(() => Tables.fromJson(example, { supplement: '{' }), 'Json');
refuses(() => Tables.fromJson(example, { supplement: '[]' }), 'Shape');
assert.throws(() => Tables.fromJson(example, { supplement: 5 }), TypeError);
refuses(() => tables.fallback(''), 'InvalidLanguage');

refuses(() => Tables.fromJson('{'), 'Json');
refuses(() => Tables.fromJson('[]'), 'Shape');
refuses(() => tables.maximize('en-'), 'InvalidSubtag');
refuses(() => tables.maximize(''), 'InvalidLanguage');
refuses(() => tables.name('it', 'de'), 'IdentifierNotFound',
  'IdentifierNotFound: the tables were made without the locale "de"');
refuses(() => tables.canonicalize('sh\tabcdefg'), 'InvalidSubtag');
refuses(() => tables.canonicalize('sh\tab', 'abcdefg'), 'InvalidSubtag');
refuses(() => tables.answer('maximise', 'en'), 'Command');
for (const command of ['negotiate', 'serve', 'nearest', 'locales nearest']) refuses(() => tables.answer(command, 'en'), 'Negotiate');
refuses(() => Tables.fromJson('{}').maximize('en'), 'Table');
for (const wrong of [5, 3e9, undefined, null, ['en'], {}]) {
  for (const call of [
    () => Tables.fromJson(wrong), () => tables.answer('maximize', wrong), () => tables.answer(wrong, 'en'),
    () => tables.maximize(wrong), () => tables.minimize(wrong), () => tables.canonicalize(wrong),
    () => tables.direction(wrong), () => tables.name(wrong, 'en'), () => tables.name('en', wrong),
  ]) assert.throws(call, TypeError);
}
assert.throws(() => tables.canonicalize('sh', 5), TypeError);
assert.throws(() => tables.name('en', 'en', 5), TypeError);
assert.strictEqual(tables.maximize(Buffer.from('zh')), 'zh-Hans-CN');
assert.strictEqual(tables.maximize(new Uint8Array([122, 104])), 'zh-Hans-CN');

const negotiator = tables.negotiator(['en-US', 'zh-Hant', 'yue-CN']);
const match = negotiator.negotiate(['fr', 'zh_TW', 'en']);
assert.deepStrictEqual(match, { request: 1, available: 1 });
assert.strictEqual(negotiator.available[match.available], 'zh-Hant');
assert.strictEqual(negotiator.negotiate(['fr']), null);
assert.strictEqual(negotiator.negotiate([]), null);
assert.strictEqual(tables.negotiator([]).negotiate(['en']), null);
assert.ok(negotiator instanceof Negotiator);
assert.strictEqual(negotiator.answer('maximize', 'zh-TW'), 'zh-Hant-TW\tM');

// a list in a syntax
for (const [syntax, available, requests, wanted] of [
  ['locales', ['de', 'en-u-hc-h12'], ['fr-x-a', 'EN-u-nu-latn'], { request: 1, available: 1 }],
  ['bcp47', ['de', 'i-klingon'], ['x-mine', 'tlh'], { request: 1, available: 1 }],
  ['posix', ['de_DE.UTF-8', 'zh_TW@euro'], ['fr_FR', 'zh_HK', 'zh_TW.UTF-8'], { request: 2, available: 1 }],
  ['locales', ['de-u-co-phonebk'], ['en'], null], ['locales', [], ['en'], null], ['posix', ['de'], [], null],
]) {
  const over = tables.negotiator(available, { syntax });
  assert.deepStrictEqual(over.negotiate(requests), wanted, syntax);
  assert.deepStrictEqual(over.available, available);
  assert.strictEqual(over.answer('maximize', 'zh-TW'), 'zh-Hant-TW\tM');
  if (wanted) {
    assert.match(over.answer(`${syntax} negotiate`, requests.join(' ')), new RegExp(`^${wanted.request}\t`));
    refuses(() => tables.negotiator(available), 'List');
    refuses(() => tables.negotiator([]).negotiate(requests), 'List');
  }
}
assert.strictEqual(tables.negotiator(['de', 'en-u-hc-h12'], { syntax: 'locales' }).answer('negotiate', 'en'), '0\ten-u-hc-h12');
assert.deepStrictEqual(tables.negotiator(['en'], { syntax: undefined }).negotiate(['en']), { request: 0, available: 0 });
for (const [syntax, faulty] of [['locales', 'en-u'], ['locales', 'i-klingon'], ['bcp47', 'en-'], ['posix', 'i-klingon']]) {
  const message = `List: what stands at place 1 is no identifier: ${JSON.stringify(faulty)}`;
  refuses(() => tables.negotiator(['de-x-a', faulty], { syntax }), 'List', message);
  refuses(() => tables.negotiator([], { syntax }).negotiate(['de-x-a', faulty]), 'List', message);
}
for (const syntax of ['utf8', '', null, 5]) assert.throws(() => tables.negotiator(['en'], { syntax }), RangeError);

for (const faulty of ['', ' ', 'en ', ' en', 'en zh', 'e', 'en-', 'en\n', 'en\0', '\u00e9n', '\ud800']) {
  for (const list of [[faulty], ['en', faulty], [faulty, 'en']]) {
    const place = list.indexOf(faulty);
    const message = `List: what stands at place ${place} is no identifier: ${JSON.stringify(faulty)}`;
    refuses(() => tables.negotiator(list), 'List', message);
    refuses(() => negotiator.negotiate(list), 'List', message);
    assert.throws(() => negotiator.negotiate(list), { place });
  }
}
for (const list of ['en', 5, undefined, null, [5], ['en', null], new Array(2)]) {
  assert.throws(() => tables.negotiator(list), TypeError);
  assert.throws(() => negotiator.negotiate(list), TypeError);
}
const language = '{"und":["en","Latn","US"],"language":{"xx":["Zzzz","DE"]}}';
const unsettled = `{"likely_language":${language},"likely_script_region":{}}`;
for (const requests of [['en'], ['en-'], []]) {
  refuses(() => Tables.fromJson(unsettled).negotiator(['en']).negotiate(requests), 'Unsettled');
}
refuses(() => Tables.fromJson('{}').negotiator(['en-']), 'Table');

const many = Array.from({ length: 2000 }, (_, number) => `en-${1000 + number}`);
const long = tables.negotiator(many);
for (let place = 0; place < 2000; place += 97) {
  assert.deepStrictEqual(long.negotiate(['fr', many[place]]), { request: 1, available: place });
}

const variants = Array.from({ length: 200 }, (_, number) => `piece${String(number).padStart(3, '0')}`).join('-');
assert.strictEqual(tables.maximize(`de-${variants}`), `de-Latn-DE-${variants}`);

const other = tables.share();
tables.close();
tables.close();
refuses(() => tables.maximize('en'), 'Closed');
refuses(() => tables.negotiator(['en']), 'Closed');
assert.deepStrictEqual(negotiator.negotiate(['en']), { request: 0, available: 0 });
negotiator.close();
negotiator.close();
refuses(() => negotiator.negotiate(['en']), 'Closed');
assert.strictEqual(other.maximize('und-SA'), 'ar-Arab-SA');
for (let time = 0; time < 1000; time += 1) {
  other.share().maximize('zh');
  other.negotiator(['en', 'de']).negotiate(['de-DE']);
}
global.gc();

// What a long answer takes is given back, though the object is there and asked again. An answer has 1.8 MB, so that 40 of 80
// that kept theirs would keep 72 MB, of which MOST is the half; where none is kept it is 1.2 MB, behind 20 answers to warm up.
const wide = `en-x${'-abcdefgh'.repeat(200000)}`;
const MOST = 20 * wide.length;
const busy = Array.from({ length: 100 }, (_, place) => (place % 2 ? other.share() : other.negotiator(['en-US', 'de'])));
// By itself malloc keeps up to 90 MB of freed blocks for later ones, and more on a busy machine: bindings/node/test forbids it.
assert.ok(process.env.MALLOC_MMAP_THRESHOLD_, 'memory is told apart where MALLOC_MMAP_THRESHOLD_ is set, as bindings/node/test does');
// The least of some readings: V8 gives pages back by threads of its own.
function resident() {
  const readings = Array.from({ length: 10 }, () => {
    global.gc();
    Atomics.wait(new Int32Array(new SharedArrayBuffer(4)), 0, 0, 20);
    return process.memoryUsage().rss;
  });
  return Math.min(...readings);
}
function askAll(some) {
  for (const each of some) {
    assert.strictEqual(each.answer('locales minimize', wide), `${wide}\tU`);
    assert.strictEqual(each.answer('maximize', 'zh-TW'), 'zh-Hant-TW\tM');
    if (each instanceof Negotiator) assert.deepStrictEqual(each.negotiate(['de-AT', 'de-DE']), { request: 1, available: 1 });
  }
}
askAll(busy.slice(0, 20));
const before = resident();
askAll(busy.slice(20));
const kept = resident() - before;
assert.ok(kept < MOST, `80 long answers keep ${kept} bytes`);
const inSyntax = other.negotiator(['de', 'en-u-hc-h12'], { syntax: 'locales' });
assert.strictEqual(inSyntax.answer('locales minimize', wide), `${wide}\tU`);
assert.strictEqual(inSyntax.answer('negotiate', 'en'), '0\ten-u-hc-h12');
console.log('calls: as they should be');
